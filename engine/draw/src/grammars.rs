//! Small grammars are drawn in several manners, each leaning on one part of the definition.

use crate::continuations::{cut_to_fit, entries_with_room, forked, of_either_form};
use crate::points;
use crate::prng::Prng;
use crate::sets::{disguise, how_many, sets, MOST};
use crate::tables::{columns, table, temper, with_columns, Stock, Temper};
use other_engine::draft::{Draft, DraftEntry, DraftTable};
use other_engine::grammar::{Set, ANY, END, NULL};

/// A manner of drawing.
type Manner = fn(&mut Prng) -> Draft;

/// The manners of drawing, with their weights.
const MANNERS: [(usize, Manner); 13] = [
    (300, mixed),
    (120, twins),
    (80, cycles),
    (150, long),
    (100, many),
    (70, narrow),
    (60, luz),
    (60, tiny),
    (30, crowd),
    (30, full),
    (12, widest),
    (150, branching),
    (18, border),
];

/// A grammar in one of the manners, of either form.
pub fn grammar(prng: &mut Prng) -> Draft {
    let weights = MANNERS.map(|(weight, _)| weight);
    let (_, manner) = MANNERS[prng.weighted(&weights)];
    let mut draft = manner(prng);
    of_either_form(prng, &mut draft);
    draft
}

fn letter(prng: &mut Prng, letters: usize) -> u8 {
    prng.between(2, letters) as u8
}

fn once_each(prng: &mut Prng, pairs: Vec<(u8, u8)>) -> Vec<(u8, u8)> {
    let mut unlike = Vec::new();
    for pair in pairs {
        if !unlike.contains(&pair) {
            unlike.push(pair);
        }
    }
    prng.shuffle(&mut unlike);
    unlike
}

/// Like pairs, a few unlike ones, and so many insertions and deletions.
fn pairs(prng: &mut Prng, letters: usize, insertions: usize, deletions: usize) -> Vec<(u8, u8)> {
    let mut pairs = Vec::new();
    for x in 2..=letters as u8 {
        if prng.percent(80) {
            pairs.push((x, x));
        }
    }
    for _ in 0..prng.below(4) {
        pairs.push((letter(prng, letters), letter(prng, letters)));
    }
    for _ in 0..insertions {
        pairs.push((NULL, letter(prng, letters)));
    }
    for _ in 0..deletions {
        pairs.push((letter(prng, letters), NULL));
    }
    if pairs.is_empty() {
        pairs.push((2, 2));
    }
    once_each(prng, pairs)
}

/// Some sets or none.
fn some_sets(prng: &mut Prng, letters: usize, pairs: &[(u8, u8)]) -> Vec<Set> {
    let count = how_many(prng);
    sets(prng, letters, pairs, count)
}

/// Sets, and tables whose columns may name them.
fn rules(prng: &mut Prng, letters: usize, pairs: &[(u8, u8)]) -> (Vec<Set>, Vec<DraftTable>) {
    let sets = some_sets(prng, letters, pairs);
    let stock = Stock {
        letters,
        pairs,
        sets: &sets,
    };
    let rules = match prng.weighted(&[15, 35, 24, 15, 10, 1]) {
        5 => prng.between(5, 32),
        few => few,
    };
    let tables = (0..rules)
        .map(|_| {
            let temper = temper(prng, rules);
            table(prng, &stock, &temper)
        })
        .collect();
    (sets, tables)
}

/// The letters that are the lexical side of some pair.
pub(crate) fn lexical_letters(pairs: &[(u8, u8)]) -> Vec<u8> {
    let mut letters: Vec<u8> = pairs.iter().map(|p| p.0).filter(|&x| x != NULL).collect();
    letters.sort_unstable();
    letters.dedup();
    letters
}

/// The lexical letters that have a pair, and the few of them that forms mostly consist of.
struct Alphabet {
    all: Vec<u8>,
    few: Vec<u8>,
}

fn alphabet(prng: &mut Prng, pairs: &[(u8, u8)], most: usize) -> Alphabet {
    let all = lexical_letters(pairs);
    let mut few = all.clone();
    prng.shuffle(&mut few);
    few.truncate(prng.between(1, most));
    Alphabet { all, few }
}

/// A form of so many letters, or an empty one where every pair is an insertion.
fn form(prng: &mut Prng, length: usize, alphabet: &Alphabet) -> Vec<u8> {
    if alphabet.all.is_empty() {
        return Vec::new();
    }
    (0..length)
        .map(|_| {
            if prng.percent(3) {
                prng.one_of(&alphabet.all)
            } else {
                prng.one_of(&alphabet.few)
            }
        })
        .collect()
}

fn entry(prng: &mut Prng, form: Vec<u8>, continuation: u8) -> DraftEntry {
    DraftEntry::with_one_way(form, continuation, prng.below(65_536) as u16)
}

/// How the entries of drawn lexicons are spread.
struct Spread {
    most_lexicons: usize,
    most_entries: usize,
    /// Weights of the form lengths 0, 1, ..
    lengths: &'static [usize],
    /// Entries that end the path, in a hundred.
    ending: usize,
    /// Empty entries that go on, at most.
    going_on_empty: usize,
}

fn lexicons(prng: &mut Prng, alphabet: &Alphabet, spread: &Spread) -> Vec<Vec<DraftEntry>> {
    let count = prng.between(1, spread.most_lexicons);
    let mut empties = 0;
    (0..count)
        .map(|lexicon| {
            let least = usize::from(lexicon == 0 || prng.percent(90));
            let entries = prng.between(least, spread.most_entries);
            (0..entries)
                .map(|_| {
                    let length = prng.weighted(spread.lengths);
                    let form = form(prng, length, alphabet);
                    let mut continuation = if prng.percent(spread.ending) {
                        END
                    } else {
                        prng.below(count) as u8
                    };
                    if form.is_empty() && continuation != END {
                        if empties == spread.going_on_empty {
                            continuation = END;
                        } else {
                            empties += 1;
                        }
                    }
                    entry(prng, form, continuation)
                })
                .collect()
        })
        .collect()
}

/// A bit of everything.
fn mixed(prng: &mut Prng) -> Draft {
    let letters = prng.between(2, 12);
    let insertions = prng.weighted(&[50, 40, 10]);
    let deletions = prng.weighted(&[45, 38, 17]);
    let pairs = pairs(prng, letters, insertions, deletions);
    let alphabet = alphabet(prng, &pairs, 4);
    let lengths: &[usize] = if insertions > 0 {
        &[22, 42, 26, 8, 2]
    } else {
        &[20, 30, 25, 12, 8, 2, 1, 0, 0, 0, 0, 0, 1]
    };
    let spread = Spread {
        most_lexicons: 4,
        most_entries: 4,
        lengths,
        ending: 50,
        going_on_empty: 1,
    };
    let lexicons = lexicons(prng, &alphabet, &spread);
    let (sets, tables) = rules(prng, letters, &pairs);
    Draft {
        image_form: 1,
        letters: points::alphabet(prng, letters),
        pairs,
        sets,
        tables,
        lexicons,
    }
}

/// Many paths with equal forms, and many pairings of equal words.
fn twins(prng: &mut Prng) -> Draft {
    let letters = prng.between(3, 6);
    let insertions = prng.weighted(&[50, 50]);
    let deletions = prng.weighted(&[40, 60]);
    let mut pairs = pairs(prng, letters, insertions, deletions);
    for _ in 0..2 {
        let pair = (letter(prng, letters), letter(prng, letters));
        if !pairs.contains(&pair) {
            pairs.insert(prng.below(pairs.len() + 1), pair);
        }
    }
    let alphabet = alphabet(prng, &pairs, 2);
    let spread = Spread {
        most_lexicons: 3,
        most_entries: 4,
        lengths: &[30, 50, 20],
        ending: 55,
        going_on_empty: 2,
    };
    let lexicons = lexicons(prng, &alphabet, &spread);
    let (sets, tables) = rules(prng, letters, &pairs);
    Draft {
        image_form: 1,
        letters: points::alphabet(prng, letters),
        pairs,
        sets,
        tables,
        lexicons,
    }
}

/// Paths that come round through empty entries up to the sixteenth.
fn cycles(prng: &mut Prng) -> Draft {
    let letters = prng.between(2, 5);
    let insertions = prng.weighted(&[70, 30]);
    let deletions = prng.weighted(&[60, 40]);
    let pairs = pairs(prng, letters, insertions, deletions);
    let alphabet = alphabet(prng, &pairs, 2);
    let round = prng.between(1, 3);
    let mut lexicons: Vec<Vec<DraftEntry>> = (0..round)
        .map(|lexicon| vec![entry(prng, Vec::new(), ((lexicon + 1) % round) as u8)])
        .collect();
    for _ in 0..prng.between(1, 3) {
        let length = prng.weighted(&[1, 3, 1]);
        let form = form(prng, length, &alphabet);
        let going_on = !form.is_empty() && prng.percent(30);
        let continuation = if going_on {
            prng.below(round) as u8
        } else {
            END
        };
        let entry = entry(prng, form, continuation);
        let lexicon = prng.below(round);
        let place = prng.below(lexicons[lexicon].len() + 1);
        lexicons[lexicon].insert(place, entry);
    }
    if prng.percent(60) {
        let form = form(prng, 1, &alphabet);
        let entry = entry(prng, form, END);
        lexicons[round - 1].push(entry);
    }
    let (sets, tables) = rules(prng, letters, &pairs);
    Draft {
        image_form: 1,
        letters: points::alphabet(prng, letters),
        pairs,
        sets,
        tables,
        lexicons,
    }
}

/// Words, paths, pairings and nulls at their limits: a chain of lexicons that splits one long form.
fn long(prng: &mut Prng) -> Draft {
    const STAY: u8 = 2;
    const DROP: u8 = 3;
    const COME: u8 = 4;
    const ALSO: u8 = 5;
    let mut pairs = vec![(STAY, STAY), (DROP, NULL)];
    if prng.percent(45) {
        pairs.push((NULL, COME));
    }
    if prng.percent(25) {
        pairs.push((ALSO, STAY));
    }
    if prng.percent(15) {
        pairs.push((ALSO, COME));
    }
    if prng.percent(8) {
        pairs.push((STAY, NULL));
    }
    prng.shuffle(&mut pairs);
    let links = prng.one_of(&[4, 5, 6, 8, 12, 15, 15, 16, 16, 16, 17]);
    let staying = match prng.below(5) {
        0 => prng.between(1, 8),
        1 => prng.between(23, 26),
        2 => prng.between(29, 33),
        _ => prng.one_of(&[24, 31, 32, 32, 33, 33]),
    };
    // A word too long by one letter alone needs pairs to spare.
    let dropping = if staying > 32 {
        prng.one_of(&[0, 0, 1, 6, 7])
    } else {
        prng.one_of(&[0, 1, 7, 8, 8, 8, 9, 9])
    };
    let mut whole = vec![STAY; staying];
    if lexical_letters(&pairs).contains(&ALSO) {
        for place in whole.iter_mut() {
            if prng.percent(2) {
                *place = ALSO;
            }
        }
    }
    for _ in 0..dropping {
        whole.insert(prng.below(whole.len() + 1), DROP);
    }
    let forms = split(prng, &whole, links);
    let mut lexicons: Vec<Vec<DraftEntry>> = Vec::new();
    for (link, form) in forms.iter().enumerate() {
        let next = if link + 1 == links {
            END
        } else {
            link as u8 + 1
        };
        lexicons.push(vec![entry(prng, form.clone(), next)]);
    }
    // A few lexicons get a second entry: the same again, one letter less, empty, or a short cut.
    for _ in 0..prng.below(4) {
        let link = prng.below(links);
        let mut twin = lexicons[link][0].clone();
        match prng.below(4) {
            0 => {}
            1 => drop(twin.form.pop()),
            2 => twin.form.clear(),
            _ if link + 2 < links => twin.go_on_to(link as u8 + 2),
            _ => twin.go_on_to(END),
        }
        let place = prng.below(lexicons[link].len() + 1);
        lexicons[link].insert(place, twin);
    }
    let rules = prng.weighted(&[50, 35, 15]);
    let temper = Temper {
        failing: 0,
        finals: prng.one_of(&[50, 80, 100]),
        staying: 20,
    };
    let sets = some_sets(prng, 5, &pairs);
    let stock = Stock {
        letters: 5,
        pairs: &pairs,
        sets: &sets,
    };
    let tables = (0..rules).map(|_| table(prng, &stock, &temper)).collect();
    Draft {
        image_form: 1,
        letters: points::alphabet(prng, 5),
        pairs,
        sets,
        tables,
        lexicons,
    }
}

/// A form cut into so many forms of at most twelve letters.
fn split(prng: &mut Prng, whole: &[u8], parts: usize) -> Vec<Vec<u8>> {
    loop {
        let mut cuts: Vec<usize> = (1..parts)
            .map(|_| prng.below(whole.len() + 1))
            .chain([0, whole.len()])
            .collect();
        cuts.sort_unstable();
        // Long forms in few parts need cuts that lie nearly even.
        if parts < 8 {
            for (place, cut) in cuts.iter_mut().enumerate() {
                *cut = place * whole.len() / parts;
            }
        }
        if cuts.windows(2).all(|cut| cut[1] - cut[0] <= 12) {
            return cuts
                .windows(2)
                .map(|cut| whole[cut[0]..cut[1]].to_vec())
                .collect();
        }
    }
}

/// Entries over several blocks, around the last record of a block and past 255.
fn many(prng: &mut Prng) -> Draft {
    let letters = prng.between(4, 9);
    let insertions = prng.weighted(&[70, 30]);
    let deletions = prng.weighted(&[60, 40]);
    let pairs = pairs(prng, letters, insertions, deletions);
    let alphabet = alphabet(prng, &pairs, 4);
    let entries = match prng.below(8) {
        0 | 1 => prng.between(240, 400),
        2 => prng.between(20, 100),
        _ => prng.one_of(&[30, 31, 32, 61, 62, 63, 93, 94]),
    };
    let mut lexicons = vec![Vec::new(), Vec::new(), Vec::new()];
    let stems = prng.between(entries / 2, entries - 2);
    for number in 0..entries {
        let length = prng.weighted(&[0, 10, 35, 35, 20]);
        let form = form(prng, length, &alphabet);
        if number < stems {
            let continuation = if prng.percent(30) {
                END
            } else {
                prng.between(1, 2) as u8
            };
            let entry = entry(prng, form, continuation);
            lexicons[0].push(entry);
        } else {
            let form = if prng.percent(15) { Vec::new() } else { form };
            let entry = entry(prng, form, END);
            lexicons[prng.between(1, 2)].push(entry);
        }
    }
    let (sets, tables) = rules(prng, letters, &pairs);
    Draft {
        image_form: 1,
        letters: points::alphabet(prng, letters),
        pairs,
        sets,
        tables,
        lexicons,
    }
}

/// Entries that end and go on as well, empty ones and insertions among them, so that the place of an ending in a step list tells.
fn branching(prng: &mut Prng) -> Draft {
    let letters = prng.between(5, 10);
    let mut pairs = vec![(2, 2), (3, 3)];
    let others = [(80, (NULL, 3)), (30, (3, NULL)), (20, (2, 3))];
    pairs.extend(
        others
            .iter()
            .filter(|(times, _)| prng.percent(*times))
            .map(|(_, pair)| *pair),
    );
    prng.shuffle(&mut pairs);
    let alphabet = alphabet(prng, &pairs, 2);
    let count = prng.between(1, 4);
    let mut circles = prng.below(2);
    let lexicons = (0..count)
        .map(|number| {
            let entries = prng.between(usize::from(number == 0), 3);
            (0..entries)
                .map(|_| {
                    let length = prng.weighted(&[40, 45, 15]);
                    let form = form(prng, length, &alphabet);
                    // An empty entry goes on to later lexicons; one may come round.
                    let first = if form.is_empty() && circles == 0 {
                        number + 1
                    } else {
                        0
                    };
                    circles -= usize::from(form.is_empty() && circles > 0);
                    let lexicons = (first..count).map(|lexicon| lexicon as u8).collect();
                    let (ends, most) = (prng.percent(60), prng.below(4));
                    forked(prng, form, ends, lexicons, most)
                })
                .collect()
        })
        .collect();
    let (sets, tables) = if prng.percent(50) {
        rules(prng, letters, &pairs)
    } else {
        (some_sets(prng, letters, &pairs), Vec::new())
    };
    Draft {
        image_form: 2,
        letters: points::alphabet(prng, letters),
        pairs,
        sets,
        tables,
        lexicons,
    }
}

/// About as many entries as form 2 has blocks for.
fn border(prng: &mut Prng) -> Draft {
    let over = prng.one_of(&[-21, -20, -1, 0, 0, 1, 1]);
    let image_form = if over <= 0 && prng.percent(30) { 2 } else { 1 };
    let mut draft = at_border(prng, image_form, over);
    // One entry alone may have a second way on, wherever it stands.
    if image_form == 2 && prng.percent(60) {
        let fillers = draft.lexicons.last_mut().expect("a lexicon");
        let number = prng.below(fillers.len());
        fillers[number].lexicons.push(0);
    }
    draft
}

/// Entries that are so many over those that form 2 has blocks for, most of them in a lexicon that no entry goes on to.
pub fn at_border(prng: &mut Prng, image_form: usize, over: isize) -> Draft {
    let mut draft = if prng.percent(50) {
        mixed(prng)
    } else {
        tiny(prng)
    };
    draft.image_form = 2;
    let wanted = entries_with_room(&draft).saturating_add_signed(over);
    let missing = wanted - draft.entries().count();
    let filler = entry(prng, Vec::new(), END);
    draft.lexicons.push(vec![filler; missing]);
    draft.image_form = image_form;
    draft
}

/// Few pairs and many overlapping columns, so that breadth over the boundary pair tells.
fn narrow(prng: &mut Prng) -> Draft {
    let letters = prng.between(2, 4);
    let count = prng.between(1, 4);
    let mut drawn = Vec::new();
    let (x, y) = (letter(prng, letters), letter(prng, letters));
    let manner = prng.below(4);
    while drawn.len() < count {
        let other = letter(prng, letters);
        drawn.push(match manner {
            0 => (x, if prng.percent(25) { NULL } else { other }),
            1 => (if prng.percent(25) { NULL } else { other }, y),
            _ => (other, letter(prng, letters)),
        });
    }
    let pairs = once_each(prng, drawn);
    let alphabet = alphabet(prng, &pairs, 3);
    let spread = Spread {
        most_lexicons: 2,
        most_entries: 3,
        lengths: &[10, 40, 30, 20],
        ending: 60,
        going_on_empty: 1,
    };
    let lexicons = lexicons(prng, &alphabet, &spread);
    let sets = some_sets(prng, letters, &pairs);
    let stock = Stock {
        letters,
        pairs: &pairs,
        sets: &sets,
    };
    let rules = prng.between(1, 3);
    let tables = (0..rules)
        .map(|_| {
            let wide = match manner {
                0 => (x, ANY),
                1 => (ANY, y),
                _ => (ANY, ANY),
            };
            let temper = temper(prng, rules);
            let mut columns = columns(prng, &stock, 4);
            if !columns.contains(&wide) && columns.len() < 16 {
                columns.insert(prng.below(columns.len() + 1), wide);
            }
            let states = prng.between(1, 3);
            with_columns(prng, &stock, columns, states, &temper)
        })
        .collect();
    Draft {
        image_form: 1,
        letters: points::alphabet(prng, letters),
        pairs,
        sets,
        tables,
        lexicons,
    }
}

/// The luz grammar, sometimes with its columns, pairs or table a little changed.
fn luz(prng: &mut Prng) -> Draft {
    let mut draft = Draft::luz();
    if prng.percent(60) {
        let mut order = [0, 1, 2, 3, 4];
        prng.shuffle(&mut order);
        let table = &mut draft.tables[0];
        table.columns = order.iter().map(|&c| table.columns[c]).collect();
        for row in &mut table.rows {
            *row = order.iter().map(|&c| row[c]).collect();
        }
    }
    if prng.percent(40) {
        prng.shuffle(&mut draft.pairs);
    }
    if prng.percent(30) {
        let row = prng.below(5);
        let column = prng.below(5);
        draft.tables[0].rows[row][column] = prng.below(6) as u8;
    }
    if prng.percent(20) {
        let pair = prng.one_of(&[(0, 4), (0, 6), (9, 0), (4, 0), (3, 8)]);
        let place = prng.below(draft.pairs.len() + 1);
        draft.pairs.insert(place, pair);
    }
    let count = how_many(prng);
    if count > 0 {
        draft.sets = sets(prng, 9, &draft.pairs, count);
        disguise(prng, &mut draft);
    }
    draft
}

/// Two or three letters with every kind of pair.
fn tiny(prng: &mut Prng) -> Draft {
    let letters = prng.between(2, 3);
    let mut all = Vec::new();
    for x in 0..=letters as u8 {
        for y in 0..=letters as u8 {
            if x != 1 && y != 1 && (x, y) != (0, 0) {
                all.push((x, y));
            }
        }
    }
    prng.shuffle(&mut all);
    all.truncate(prng.between(1, 4));
    let alphabet = alphabet(prng, &all, 2);
    let spread = Spread {
        most_lexicons: 2,
        most_entries: 3,
        lengths: &[30, 50, 20],
        ending: 65,
        going_on_empty: 1,
    };
    let lexicons = lexicons(prng, &alphabet, &spread);
    let (sets, tables) = rules(prng, letters, &all);
    Draft {
        image_form: 1,
        letters: points::alphabet(prng, letters),
        pairs: all,
        sets,
        tables,
        lexicons,
    }
}

/// Rules up to the thirty-second, of which a late one alone is strict.
fn crowd(prng: &mut Prng) -> Draft {
    let mut draft = mixed(prng);
    let stock = Stock {
        letters: draft.letters.len(),
        pairs: &draft.pairs,
        sets: &draft.sets,
    };
    let rules = prng.one_of(&[16, 17, 31, 32, 32, 32]);
    let strict = if prng.percent(60) {
        rules - 1
    } else {
        prng.below(rules)
    };
    draft.tables = (0..rules)
        .map(|rule| {
            let temper = if rule == strict {
                Temper {
                    failing: 25,
                    finals: 60,
                    staying: 20,
                }
            } else {
                Temper {
                    failing: 0,
                    finals: 100,
                    staying: 50,
                }
            };
            table(prng, &stock, &temper)
        })
        .collect();
    draft
}

/// Counts at their limits, all or some of them.
fn full(prng: &mut Prng) -> Draft {
    let all = prng.percent(60);
    let sets = if all && prng.percent(75) {
        MOST
    } else {
        how_many(prng)
    };
    let image_form = prng.between(1, 2);
    at_limits(prng, image_form, all, sets)
}

/// All counts at their limits, in form 1.
pub fn largest(prng: &mut Prng) -> Draft {
    at_limits(prng, 1, true, MOST)
}

/// All counts at their limits, in form 2: as many entries as there are blocks for.
pub fn largest_in_form_2(prng: &mut Prng) -> Draft {
    at_limits(prng, 2, true, MOST)
}

/// Counts at their limits, all or some of them, beside so many sets, with the entries spread over all lexicons or most of them in the first or last.
fn at_limits(prng: &mut Prng, image_form: usize, all: bool, set_count: usize) -> Draft {
    let mut most = |count: usize, few: usize| if all || prng.percent(50) { count } else { few };
    let (letters, count, rules, lexicons, entries) = (
        most(120, 20),
        most(250, 60),
        most(32, 2),
        most(64, 3),
        most(2_800, 80),
    );
    let favoured = prng.one_of(&[None, Some(0), Some(0), Some(lexicons - 1)]);
    let mut pairs: Vec<(u8, u8)> = (2..=letters as u8).map(|x| (x, x)).collect();
    pairs.push((letter(prng, letters), NULL));
    while pairs.len() < count {
        let pair = (letter(prng, letters), letter(prng, letters));
        if !pairs.contains(&pair) {
            pairs.push(pair);
        }
    }
    pairs.truncate(count);
    prng.shuffle(&mut pairs);
    let sets = sets(prng, letters, &pairs, set_count);
    let stock = Stock {
        letters,
        pairs: &pairs,
        sets: &sets,
    };
    let tables = (0..rules)
        .map(|rule| {
            let temper = Temper {
                failing: 0,
                finals: 98,
                staying: 30,
            };
            let drawn = if rule == 0 {
                pairs[..15].iter().copied().chain([(ANY, ANY)]).collect()
            } else {
                columns(prng, &stock, 16)
            };
            let states = if rule < 2 { 24 } else { prng.between(1, 24) };
            with_columns(prng, &stock, drawn, states, &temper)
        })
        .collect();
    let lexical = lexical_letters(&pairs);
    let mut spread: Vec<Vec<DraftEntry>> = vec![Vec::new(); lexicons];
    for number in 0..entries {
        let lexicon = match favoured {
            _ if number == 0 => 0,
            Some(lexicon) if prng.percent(90) => lexicon,
            _ => prng.below(lexicons),
        };
        let length = prng.between(1, 4);
        let form = (0..length).map(|_| prng.one_of(&lexical)).collect();
        let continuation = match favoured {
            _ if prng.percent(60) => END,
            Some(lexicon) if prng.percent(50) => lexicon as u8,
            _ => prng.below(lexicons) as u8,
        };
        let mut entry = entry(prng, form, continuation);
        if image_form == 2 && prng.percent(40) {
            let last = lexicons as u8 - 1;
            let any = prng.below(lexicons) as u8;
            entry = forked(prng, entry.form, entry.ends, vec![any, last], 2);
            entry.lexicons.dedup();
        }
        spread[lexicon].push(entry);
    }
    let mut draft = Draft {
        image_form,
        letters: points::alphabet(prng, letters),
        pairs,
        sets,
        tables,
        lexicons: spread,
    };
    cut_to_fit(&mut draft);
    draft
}

/// Rows as wide as they can be: sixteen entries of four digits each and forty pairs of three.
pub fn widest(prng: &mut Prng) -> Draft {
    const LETTERS: u8 = 120;
    const STAY: u8 = LETTERS - 1;
    const DROP: u8 = LETTERS;
    // The narrower pairs are of letters that no form has.
    let mut pairs: Vec<(u8, u8)> = (2..100)
        .flat_map(|x| [(x, x), (x, x + 1), (x, x + 2)])
        .take(248)
        .collect();
    pairs.extend([(STAY, STAY), (DROP, NULL)]);
    let mut forms = vec![vec![STAY, STAY]; 16];
    for form in &mut forms[..8] {
        form.insert(prng.below(3), DROP);
    }
    // In form 2 there are blocks for no more.
    let image_form = prng.between(1, 2);
    let others = prng.one_of(&[
        1_000,
        2_047,
        2_048,
        if image_form == 1 { 2_600 } else { 2_400 },
    ]);
    // The entries ahead of the long path spell no letter and so have no reading.
    let mut first = vec![entry(prng, vec![DROP], END); others];
    first.push(entry(prng, forms[0].clone(), 1));
    let mut lexicons = vec![first];
    for (link, form) in forms.iter().enumerate().take(15).skip(1) {
        lexicons.push(vec![entry(prng, form.clone(), link as u8 + 1)]);
    }
    let last = prng.one_of(&[1, 63, 64, 65, 100]);
    lexicons.push(vec![entry(prng, forms[15].clone(), END); last]);
    if image_form == 2 {
        for link in lexicons[1..15].iter_mut().flatten() {
            link.ends = prng.percent(30);
        }
    }
    Draft {
        image_form,
        letters: (1..=u16::from(LETTERS)).collect(),
        sets: some_sets(prng, LETTERS.into(), &pairs),
        pairs,
        tables: Vec::new(),
        lexicons,
    }
}

/// A grammar with a word and a path, as bytes, that have more readings than two bytes count.
pub struct Many {
    pub draft: Draft,
    pub word: Vec<u8>,
    pub path: Vec<u8>,
}

/// Many paths of two equal entries each read the word, and the path's one entry of three letters can be written in many ways.
pub fn many_readings(prng: &mut Prng) -> Many {
    let ways = prng.between(41, 42) as u8;
    let letters = ways + 1;
    let mut pairs: Vec<(u8, u8)> = (2..=letters).map(|y| (2, y)).collect();
    prng.shuffle(&mut pairs);
    let firsts = prng.between(256, 264);
    let seconds = prng.between(257, 264);
    let alone = prng.one_of(&[0, firsts]);
    let mut lexicons = vec![
        vec![entry(prng, vec![2], 1); firsts],
        vec![entry(prng, vec![2], END); seconds],
    ];
    lexicons[0].insert(alone, entry(prng, vec![2, 2, 2], END));
    let (y, z) = (letter(prng, letters.into()), letter(prng, letters.into()));
    Many {
        draft: Draft {
            image_form: 1,
            letters: points::alphabet(prng, letters.into()),
            pairs,
            sets: Vec::new(),
            tables: Vec::new(),
            lexicons,
        },
        word: vec![y, z],
        path: (alone as u16).to_le_bytes().to_vec(),
    }
}

#[cfg(test)]
mod tests {
    use super::{grammar, largest, largest_in_form_2, Manner};
    use crate::prng::Prng;
    use other_engine::draft::Draft;
    use other_engine::grammar::{BOUNDARY, NULL};
    use other_engine::image::read;

    /// Whether two sets are equal and not empty.
    fn has_equal_sets(draft: &Draft) -> bool {
        let sets = || draft.sets.iter().enumerate();
        sets().any(|(place, set)| !set.is_empty() && draft.sets[..place].contains(set))
    }

    #[test]
    fn grammars_with_sets_are_common_and_mostly_accepted() {
        let mut prng = Prng::new(1);
        let (mut accepted, mut with_sets, mut with_columns) = (0, 0, 0);
        let mut met = [0; 6];
        for _ in 0..1_000 {
            let draft = grammar(&mut prng);
            let Ok(grammar) = read(&draft.image()) else {
                continue;
            };
            accepted += 1;
            with_sets += usize::from(!draft.sets.is_empty());
            with_columns += usize::from(grammar.names_sets());
            let some = |has: fn(&Vec<u8>) -> bool| draft.sets.iter().any(has);
            let ways = [
                draft.sets.len() == 31,
                some(|set| set.contains(&NULL)),
                some(|set| set.contains(&BOUNDARY)),
                some(|set| !set.contains(&NULL) && !set.contains(&BOUNDARY)),
                some(|set| set.is_empty()),
                has_equal_sets(&draft),
            ];
            for (count, way) in met.iter_mut().zip(ways) {
                *count += usize::from(way);
            }
        }
        assert!(accepted > 900, "{accepted}");
        assert!((450..550).contains(&with_sets), "{with_sets}");
        assert!(with_columns > 250, "{with_columns}");
        assert!(met.iter().all(|&count| count > 20), "{met:?}");
    }

    #[test]
    fn the_largest_image_has_128_blocks() {
        let mut prng = Prng::new(1);
        for (drawn, entries) in [(largest as Manner, 2_800), (largest_in_form_2, 1_911)] {
            for _ in 0..3 {
                let image = drawn(&mut prng).image();
                assert_eq!(image.len(), 65_536);
                assert!(read(&image).is_ok_and(|grammar| grammar.entries.len() == entries));
            }
        }
    }
}
