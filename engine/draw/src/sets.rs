//! Sets are drawn around the letters that pairs have, so that a column that names one matches some pairs and not others.

use crate::prng::Prng;
use other_engine::draft::Draft;
use other_engine::grammar::{Set, BOUNDARY, FIRST_SET, NULL};

/// The most sets a grammar has.
pub const MOST: usize = 31;

/// How many sets a grammar gets: none in half of them.
pub fn how_many(prng: &mut Prng) -> usize {
    match prng.weighted(&[50, 36, 8, 6]) {
        0 => 0,
        1 => prng.between(1, 4),
        2 => prng.between(5, 30),
        _ => MOST,
    }
}

/// So many sets for these pairs.
pub fn sets(prng: &mut Prng, letters: usize, pairs: &[(u8, u8)], count: usize) -> Vec<Set> {
    let mut sets = Vec::new();
    for _ in 0..count {
        let set = set(prng, letters, pairs, &sets);
        sets.push(set);
    }
    sets
}

fn set(prng: &mut Prng, letters: usize, pairs: &[(u8, u8)], earlier: &[Set]) -> Set {
    let mut set = match prng.weighted(&[4, 14, 10, 16, 50]) {
        0 => return Vec::new(),
        1 => sifted(prng, letters, 30),
        2 => sifted(prng, letters, 85),
        3 if !earlier.is_empty() => {
            let like = earlier[prng.below(earlier.len())].clone();
            if prng.percent(40) {
                return like;
            }
            nearly(prng, letters, like)
        }
        _ => of_pairs(prng, pairs),
    };
    for (letter, times) in [(NULL, 15), (BOUNDARY, 12), (letters as u8, 12)] {
        if prng.percent(times) {
            set.push(letter);
        }
    }
    set.sort_unstable();
    set.dedup();
    set
}

/// Of the null, the boundary and all letters so many in a hundred.
fn sifted(prng: &mut Prng, letters: usize, times: usize) -> Set {
    (0..=letters as u8)
        .filter(|_| prng.percent(times))
        .collect()
}

/// A set with one letter more or less.
fn nearly(prng: &mut Prng, letters: usize, mut set: Set) -> Set {
    if set.is_empty() || prng.percent(50) {
        set.push(prng.between(2, letters) as u8);
    } else {
        set.remove(prng.below(set.len()));
    }
    set
}

/// What a few pairs have on one side.
fn of_pairs(prng: &mut Prng, pairs: &[(u8, u8)]) -> Set {
    let lexical = prng.percent(50);
    (0..prng.between(1, 4))
        .map(|_| {
            let pair = prng.one_of(pairs);
            if lexical {
                pair.0
            } else {
                pair.1
            }
        })
        .collect()
}

/// The side that names a set of this number.
pub fn side(number: usize) -> u8 {
    FIRST_SET + number as u8
}

/// A side that names one of some sets, often the last, if there are any.
fn some_side(prng: &mut Prng, mut numbers: Vec<usize>) -> Option<u8> {
    if prng.percent(75) {
        prng.shuffle(&mut numbers);
    }
    numbers.last().copied().map(side)
}

/// A side that names any set, if there are sets.
pub fn any_side(prng: &mut Prng, sets: &[Set]) -> Option<u8> {
    some_side(prng, (0..sets.len()).collect())
}

/// A side that names a set with this letter, if there is one.
pub fn side_with(prng: &mut Prng, sets: &[Set], letter: u8) -> Option<u8> {
    let with = (0..sets.len()).filter(|&number| sets[number].contains(&letter));
    some_side(prng, with.collect())
}

/// The side that names the set of one letter alone, which is added where it is missing and there is room.
pub fn side_alone(sets: &mut Vec<Set>, letter: u8) -> Option<u8> {
    let number = sets.iter().position(|set| set[..] == [letter]);
    if number.is_none() && sets.len() < MOST {
        sets.push(vec![letter]);
        return Some(side(sets.len() - 1));
    }
    number.map(side)
}

/// Some column sides that are letters become sets of that letter alone, which match the same pairs.
pub fn disguise(prng: &mut Prng, draft: &mut Draft) {
    for column in draft.tables.iter_mut().flat_map(|table| &mut table.columns) {
        for side in [&mut column.0, &mut column.1] {
            if *side < FIRST_SET && prng.percent(40) {
                *side = side_alone(&mut draft.sets, *side).unwrap_or(*side);
            }
        }
    }
}
