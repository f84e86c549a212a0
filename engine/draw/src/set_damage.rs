//! The sets of an image are damaged in their count, their block, their bits, the sides that name them, and by columns that tie over them.

use crate::continuations::cut_to_fit;
use crate::damage::{get, put, resealed, Place};
use crate::grammars::lexical_letters;
use crate::prng::Prng;
use crate::sets::{sets, side, side_alone, MOST};
use other_engine::draft::Draft;
use other_engine::grammar::{columns_taken, Set, ANY, BOUNDARY, FIRST_SET, NULL};
use other_engine::image::BLOCK;

/// The block of the sets, where there are any.
const SETS: usize = 3;

/// The draft, with a few sets that no column names where it has none.
fn with_sets(prng: &mut Prng, draft: &Draft) -> Draft {
    let mut draft = draft.clone();
    if draft.sets.is_empty() {
        let count = prng.between(1, 3);
        draft.sets = sets(prng, draft.letters.len(), &draft.pairs, count);
        cut_to_fit(&mut draft);
    }
    draft
}

/// An image whose sets differ from the layout, for refusal 3.
pub fn layout(prng: &mut Prng, draft: &Draft) -> Vec<u8> {
    let image = match prng.below(7) {
        0 => too_many(prng, draft),
        1 => missing(prng, draft),
        2 => extra(prng, draft),
        3 => moved(prng, draft),
        4 => for_a_rule(prng, draft),
        5 => miscounted(prng, draft),
        _ => spoiled(prng, draft),
    };
    resealed(image)
}

/// Sets laid out right, as far as their block holds them, and too many.
fn too_many(prng: &mut Prng, draft: &Draft) -> Vec<u8> {
    let mut draft = with_sets(prng, draft);
    let count = prng.one_of(&[32, 32, 32, 33, 127, 128, 255, 256, 256 + MOST, 65_535]);
    let set = draft.sets[0].clone();
    draft.sets.resize(count, set);
    draft.unsealed()
}

/// Sets that are counted, without their block.
fn missing(prng: &mut Prng, draft: &Draft) -> Vec<u8> {
    let mut image = draft.unsealed();
    if draft.sets.is_empty() {
        put(&mut image, 16, prng.one_of(&[1, 1, 2, MOST, 256]));
    } else {
        image.drain(SETS * BLOCK..(SETS + 1) * BLOCK);
    }
    image
}

/// A block of sets too many: where none are counted, or once more where it is.
fn extra(prng: &mut Prng, draft: &Draft) -> Vec<u8> {
    let full = draft.unsealed().len() == 128 * BLOCK;
    if full || prng.percent(40) {
        let mut image = with_sets(prng, draft).unsealed();
        put(&mut image, 16, 0);
        return image;
    }
    let mut block = with_sets(prng, draft).unsealed()[SETS * BLOCK..][..BLOCK].to_vec();
    if prng.percent(40) {
        block[3..].fill(0);
    }
    let mut image = draft.unsealed();
    let place = match prng.below(3) {
        0 => prng.between(1, image.len() / BLOCK),
        _ => SETS,
    };
    image.splice(place * BLOCK..place * BLOCK, block);
    image
}

/// The block of sets at another place than its own.
fn moved(prng: &mut Prng, draft: &Draft) -> Vec<u8> {
    let mut image = with_sets(prng, draft).unsealed();
    let block: Vec<u8> = image.drain(SETS * BLOCK..(SETS + 1) * BLOCK).collect();
    let last = image.len() / BLOCK;
    let place = match prng.below(4) {
        0 => last,
        1 => SETS + 1,
        2 => SETS - 1,
        _ => (SETS + prng.between(1, last)) % (last + 1),
    };
    image.splice(place * BLOCK..place * BLOCK, block);
    image
}

/// The block of sets counted as a rule's, or a rule's as that of sets, so that the block total fits.
fn for_a_rule(prng: &mut Prng, draft: &Draft) -> Vec<u8> {
    let rules = draft.tables.len();
    let mut image;
    if draft.sets.is_empty() && rules > 0 {
        image = draft.unsealed();
        put(&mut image, 10, rules - 1);
        put(&mut image, 16, 1);
    } else {
        image = with_sets(prng, draft).unsealed();
        put(&mut image, 10, rules + 1);
        put(&mut image, 16, 0);
    }
    image
}

/// A count of sets in the header that is not the one in their block.
fn miscounted(prng: &mut Prng, draft: &Draft) -> Vec<u8> {
    let mut image = with_sets(prng, draft).unsealed();
    let count = get(&image, 16);
    let other = match prng.below(4) {
        0 => count - 1,
        1 => count + 1,
        2 => MOST - count,
        _ => count + 256 * prng.between(1, 255),
    };
    if prng.percent(50) || other > 255 {
        put(&mut image, 16, other);
    } else {
        image[SETS * BLOCK + 3] = other as u8;
    }
    image
}

/// A byte after the last set, or after the count of sets, that is not 0, or a block of another kind.
fn spoiled(prng: &mut Prng, draft: &Draft) -> Vec<u8> {
    let draft = with_sets(prng, draft);
    let mut image = draft.unsealed();
    let first = SETS * BLOCK + 4 + 16 * draft.sets.len();
    let last = SETS * BLOCK + 509;
    let at = match prng.below(5) {
        0 => first,
        1 => last,
        2 => prng.between(first, last),
        3 => prng.between(18, 20),
        _ => {
            image[SETS * BLOCK + 2] = prng.one_of(&[0, 2, 3, 4, 5, 6, 8, 135, 255]);
            return image;
        }
    };
    image[at] = 1 << prng.below(8);
    image
}

/// Puts a bit for a letter above L into one set, for refusal 6.
pub fn bit_above(prng: &mut Prng, place: &Place, image: &mut [u8]) {
    let past = place.letters + 1;
    let letter = match prng.below(3) {
        0 => past,
        1 => 127,
        _ => prng.between(past, 127),
    };
    let set = match prng.below(3) {
        0 => place.sets - 1,
        _ => prng.below(place.sets),
    };
    image[place.set(set) + letter / 8] |= 1 << (letter % 8);
}

/// A side that is no letter, not any, and names no set there is.
pub fn wrong_side(prng: &mut Prng, place: &Place) -> u8 {
    let past = place.letters + 1;
    let missing = usize::from(FIRST_SET) + place.sets;
    let side = match prng.below(7) {
        0 => past,
        1 => prng.between(past, 127),
        2 => prng.between(121, 127),
        3 => missing,
        4 => prng.between(missing, 254),
        5 => prng.between(159, 254),
        _ => prng.one_of(&[158.max(missing), 159, 254]),
    };
    side as u8
}

/// Columns by which some pair has two narrowest, or none, because of sets, for refusal 7; the draft gets the sets.
pub fn columns(prng: &mut Prng, draft: &mut Draft, old: &[(u8, u8)]) -> Vec<(u8, u8)> {
    // Two sets are overwritten, by which the columns of other rules may fail as well.
    while draft.sets.len() < 2 {
        draft.sets.push(Vec::new());
    }
    cut_to_fit(draft);
    let one = prng.below(draft.sets.len());
    let other = (one + prng.between(1, draft.sets.len() - 1)) % draft.sets.len();
    match prng.below(6) {
        0 => {
            let (set, alike) = as_wide(prng, draft);
            (draft.sets[one], draft.sets[other]) = (set, alike);
            shuffled(prng, vec![(side(one), ANY), (side(other), ANY), (ANY, ANY)])
        }
        1 => {
            let (x, _) = prng.one_of(&draft.pairs);
            let unpaired = unpaired(draft);
            draft.sets[one] = vec![x];
            draft.sets[one].extend(unpaired.into_iter().filter(|_| prng.percent(40)));
            shuffled(prng, vec![(side(one), ANY), (x, ANY), (ANY, ANY)])
        }
        2 => {
            // No column is left for the boundary.
            draft.sets[one] = (0..=draft.letters.len() as u8).collect();
            draft.sets[one].retain(|&letter| letter != BOUNDARY);
            one_side(prng, side(one))
        }
        3 => {
            // No column is left for the pairs of one letter, perhaps the null.
            let (x, y) = prng.one_of(&draft.pairs);
            draft.sets[one] = (0..=draft.letters.len() as u8).collect();
            if prng.percent(50) {
                draft.sets[one].retain(|&letter| letter != x);
                vec![(side(one), ANY)]
            } else {
                draft.sets[one].retain(|&letter| letter != y);
                vec![(ANY, side(one))]
            }
        }
        4 => {
            draft.sets[one].clear();
            one_side(prng, side(one))
        }
        _ => twinned(prng, draft, old),
    }
}

fn shuffled(prng: &mut Prng, mut columns: Vec<(u8, u8)>) -> Vec<(u8, u8)> {
    prng.shuffle(&mut columns);
    columns
}

/// One column with this side on one level or on both.
fn one_side(prng: &mut Prng, side: u8) -> Vec<(u8, u8)> {
    vec![prng.one_of(&[(side, ANY), (ANY, side), (side, side)])]
}

/// The letters, and perhaps the null, that are the lexical side of no pair.
fn unpaired(draft: &Draft) -> Set {
    let lexical = lexical_letters(&draft.pairs);
    let inserted = draft.pairs.iter().any(|pair| pair.0 == NULL);
    (0..=draft.letters.len() as u8)
        .filter(|&x| x != BOUNDARY && !lexical.contains(&x) && !(x == NULL && inserted))
        .collect()
}

/// Two sets that meet in a lexical letter and have as many pairs each; they may be unlike.
fn as_wide(prng: &mut Prng, draft: &Draft) -> (Set, Set) {
    let count = |x: u8| draft.pairs.iter().filter(|pair| pair.0 == x).count();
    let (x, _) = prng.one_of(&draft.pairs);
    let mut one = vec![x];
    let mut other = vec![x];
    for _ in 0..prng.below(4) {
        let (y, _) = prng.one_of(&draft.pairs);
        let (z, _) = prng.one_of(&draft.pairs);
        let new = !one.contains(&y) && !other.contains(&z);
        if new && count(y) == count(z) {
            one.push(y);
            other.push(z);
        }
    }
    let unpaired = unpaired(draft);
    other.extend(unpaired.into_iter().filter(|_| prng.percent(20)));
    (one, other)
}

/// The old columns, and one that some pair takes once more with a set of its letter alone in the letter's place.
fn twinned(prng: &mut Prng, draft: &mut Draft, old: &[(u8, u8)]) -> Vec<(u8, u8)> {
    let mut columns = old.to_vec();
    if columns.len() == 16 {
        columns.remove(prng.below(16));
    }
    // Where none is taken, the column removed was the only one for some pair.
    if let Some(taken) = columns_taken(&draft.sets, &columns, &draft.pairs) {
        let mut twin = columns[prng.one_of(&taken)];
        for side in [&mut twin.0, &mut twin.1] {
            if *side < FIRST_SET {
                *side = side_alone(&mut draft.sets, *side).unwrap_or(*side);
            }
        }
        columns.insert(prng.below(columns.len() + 1), twin);
    }
    columns
}

#[cfg(test)]
mod tests {
    use super::{columns, layout};
    use crate::damage::damaged;
    use crate::grammars::{grammar, largest};
    use crate::prng::Prng;
    use other_engine::draft::Draft;
    use other_engine::image::{read, BLOCK};

    fn refusal(image: &[u8]) -> u8 {
        read(image).err().unwrap_or(0)
    }

    /// A drawn grammar that is accepted.
    fn accepted(prng: &mut Prng) -> Draft {
        loop {
            let draft = match prng.below(30) {
                0 => largest(prng),
                _ => grammar(prng),
            };
            if refusal(&draft.image()) == 0 {
                return draft;
            }
        }
    }

    #[test]
    fn a_layout_of_sets_is_wrong_in_every_way() {
        let mut prng = Prng::new(1);
        let mut met = [0; 7];
        for _ in 0..500 {
            let draft = accepted(&mut prng);
            let image = layout(&mut prng, &draft);
            assert_eq!(refusal(&image), 3);
            let count = usize::from(u16::from_le_bytes([image[16], image[17]]));
            let blocks: Vec<&[u8]> = image.chunks(BLOCK).collect();
            let kinds = blocks.iter().filter(|block| block[2] == 7).count();
            let own = blocks[3][2] == 7;
            let records = usize::from(blocks[3][3]);
            let ways = [
                count > 31,
                count > 0 && kinds == 0,
                count == 0 && kinds > 0,
                kinds > 1,
                kinds == 1 && !own,
                (1..=31).contains(&count) && own && records != count,
                (1..=31).contains(&count) && own && records == count,
            ];
            for (count, way) in met.iter_mut().zip(ways) {
                *count += usize::from(way);
            }
        }
        assert!(met.iter().all(|&count| count > 5), "{met:?}");
    }

    #[test]
    fn columns_over_sets_have_no_single_narrowest() {
        let mut prng = Prng::new(1);
        for _ in 0..200 {
            let mut draft = accepted(&mut prng);
            let Some(old) = draft.tables.first().map(|table| table.columns.clone()) else {
                continue;
            };
            let new = columns(&mut prng, &mut draft, &old);
            let table = &mut draft.tables[0];
            table.rows = vec![vec![1; new.len()]; table.finals.len()];
            table.columns = new;
            assert_eq!(refusal(&draft.image()), 7);
        }
    }

    #[test]
    fn damage_gets_the_refusal_it_is_made_for() {
        let mut prng = Prng::new(2);
        for _ in 0..60 {
            let draft = accepted(&mut prng);
            for k in [0, 1, 2, 3, 4, 5, 6, 7, 8, 14] {
                let made = damaged(&mut prng, &draft, k);
                let found = refusal(&made.image);
                assert!(made.refusal.is_none_or(|k| k == found), "{k} {found}");
            }
        }
    }
}
