//! Drawn grammars are put into form 2: entries get more ways on, and lexicons are spread over all numbers that bits can name.

use crate::prng::Prng;
use other_engine::draft::{Draft, DraftEntry};
use other_engine::entries::entries_in_block;

/// The most lexicons, and the most blocks of an image.
const LEXICONS: usize = 64;
const BLOCKS: usize = 128;

/// The entries that an image of this draft, its rules and sets, has blocks for.
pub fn entries_with_room(draft: &Draft) -> usize {
    let ahead = 4 + usize::from(!draft.sets.is_empty()) + draft.tables.len();
    BLOCKS.saturating_sub(ahead) * entries_in_block(draft.image_form)
}

/// Takes entries away until the image has no block too many, so that its length is none to be refused.
pub fn cut_to_fit(draft: &mut Draft) {
    let mut over = draft
        .entries()
        .count()
        .saturating_sub(entries_with_room(draft));
    while over > 0 {
        let longest = draft
            .lexicons
            .iter_mut()
            .max_by_key(|entries| entries.len());
        let entries = longest.expect("a lexicon");
        let fewer = entries.len().div_ceil(2).min(over);
        entries.truncate(entries.len() - fewer);
        over -= fewer;
    }
}

/// About half of the drafts that have room for it are put into form 2; some of either form get lexicons up to the last.
pub fn of_either_form(prng: &mut Prng, draft: &mut Draft) {
    if prng.percent(20) {
        scatter(prng, draft);
    }
    if draft.image_form == 1 && prng.percent(50) {
        draft.image_form = 2;
        if draft.entries().count() > entries_with_room(draft) {
            draft.image_form = 1;
        } else if prng.percent(75) {
            more_ways(prng, draft);
        }
    }
}

/// The lexicons keep their order and the first its place, and empty ones come between, up to number 63 at times.
fn scatter(prng: &mut Prng, draft: &mut Draft) {
    let old = draft.lexicons.len();
    let count = match prng.below(3) {
        0 => prng.between(old, LEXICONS),
        _ => LEXICONS,
    };
    let mut places: Vec<usize> = (1..count).collect();
    prng.shuffle(&mut places);
    places.truncate(old - 1);
    // The last lexicon is often the last there can be.
    if old > 1 && !places.contains(&(count - 1)) && prng.percent(70) {
        places[0] = count - 1;
    }
    places.push(0);
    places.sort_unstable();
    let mut lexicons = vec![Vec::new(); count];
    for (mut entries, &place) in draft.lexicons.drain(..).zip(&places) {
        for entry in &mut entries {
            for lexicon in &mut entry.lexicons {
                *lexicon = places[usize::from(*lexicon)] as u8;
            }
        }
        lexicons[place] = entries;
    }
    draft.lexicons = lexicons;
}

/// Gives some entries an ending, and some one lexicon more or two.
fn more_ways(prng: &mut Prng, draft: &mut Draft) {
    let count = draft.lexicons.len();
    let ends = prng.one_of(&[0, 20, 40, 70]);
    let forks = prng.one_of(&[0, 15, 30, 50]);
    let there: Vec<u8> = numbers_where(draft, |entries| !entries.is_empty());
    let empty: Vec<u8> = numbers_where(draft, |entries| entries.is_empty());
    for (number, entries) in draft.lexicons.iter_mut().enumerate() {
        // All entries of a long lexicon with more ways would leave too many paths to list.
        let forks = if entries.len() > 20 {
            forks / 10
        } else {
            forks
        };
        for entry in entries {
            entry.ends |= prng.percent(ends);
            for _ in 0..2 {
                if !prng.percent(forks) {
                    continue;
                }
                let lexicon = match prng.below(8) {
                    0 if !empty.is_empty() && prng.percent(40) => {
                        entry.go_on_to(prng.one_of(&empty));
                        break;
                    }
                    0 if !empty.is_empty() => prng.one_of(&empty),
                    1 => prng.below(count) as u8,
                    _ => prng.one_of(&there),
                };
                go_on(entry, number, lexicon);
            }
        }
    }
}

fn numbers_where(draft: &Draft, is: fn(&Vec<DraftEntry>) -> bool) -> Vec<u8> {
    let numbered = draft.lexicons.iter().zip(0..);
    let met = numbered.filter(|(entries, _)| is(entries));
    met.map(|(_, number)| number).collect()
}

/// One lexicon more, save that an empty entry of lexicon `number` makes no new circle, since each doubles the paths at every entry.
fn go_on(entry: &mut DraftEntry, number: usize, lexicon: u8) {
    let circle = entry.form.is_empty() && usize::from(lexicon) <= number;
    if !circle && !entry.lexicons.contains(&lexicon) {
        entry.lexicons.push(lexicon);
        entry.lexicons.sort_unstable();
    }
}

/// An entry with an ending or without, and so many lexicons of these, none of them twice; it has one way on at least.
pub fn forked(
    prng: &mut Prng,
    form: Vec<u8>,
    ends: bool,
    mut lexicons: Vec<u8>,
    most: usize,
) -> DraftEntry {
    prng.shuffle(&mut lexicons);
    lexicons.truncate(most);
    lexicons.sort_unstable();
    DraftEntry {
        form,
        ends: ends || lexicons.is_empty(),
        lexicons,
        gloss: prng.below(65_536) as u16,
    }
}

#[cfg(test)]
mod tests {
    use crate::grammars::grammar;
    use crate::prng::Prng;
    use other_engine::image::read;

    #[test]
    fn form_2_is_common_and_its_ways_are_of_every_sort() {
        let mut prng = Prng::new(1);
        let (mut accepted, mut in_form_2) = (0, 0);
        let mut met = [0; 8];
        let mut bytes = [0; 8];
        for _ in 0..1_000 {
            let draft = grammar(&mut prng);
            let Ok(grammar) = read(&draft.image()) else {
                continue;
            };
            accepted += 1;
            if draft.image_form == 1 {
                continue;
            }
            in_form_2 += 1;
            let some = |has: &dyn Fn(&other_engine::Entry) -> bool| grammar.entries.iter().any(has);
            for entry in &grammar.entries {
                for lexicon in &entry.lexicons {
                    bytes[usize::from(lexicon / 8)] += 1;
                }
            }
            let is_empty = |&lexicon: &u8| grammar.lexicon(lexicon.into()).is_empty();
            let ways = [
                some(&|entry| entry.ends && !entry.lexicons.is_empty()),
                some(&|entry| entry.lexicons.len() == 2),
                some(&|entry| entry.lexicons.len() > 2),
                some(&|entry| entry.lexicons.contains(&63)),
                some(&|entry| entry.form.is_empty() && entry.ways() > 1),
                some(&|entry| entry.lexicons.iter().any(is_empty)),
                some(&|entry| !entry.ends && entry.lexicons.iter().all(is_empty)),
                grammar.entries.iter().all(|entry| entry.ways() == 1),
            ];
            for (count, way) in met.iter_mut().zip(ways) {
                *count += usize::from(way);
            }
        }
        assert!((450..600).contains(&in_form_2), "{in_form_2} of {accepted}");
        assert!(met.iter().all(|&count| count > 20), "{met:?}");
        assert!(bytes.iter().all(|&count| count > 20), "{bytes:?}");
    }
}
