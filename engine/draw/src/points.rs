//! Code points are drawn around the folding: letters with and without their capitals, and words in which some are folded, some stay and some have no letter.

use crate::prng::Prng;
use other_engine::draft::{Draft, DraftEntry};
use other_engine::folding::{lower_case, LAST_FOLDED};
use other_engine::grammar::{Grammar, END};
use std::ops::RangeInclusive;
use std::sync::LazyLock;

/// The surrogates, which no alphabet has.
pub const SURROGATES: RangeInclusive<u16> = 55_296..=57_343;

/// The most letters an alphabet has beside the boundary.
const MOST: usize = 119;

/// A capital and its lower case.
type Cased = (u16, u16);

/// The capitals that are folded.
static FOLDED: LazyLock<Vec<Cased>> = LazyLock::new(|| cased(0..=LAST_FOLDED));

/// The capitals that are not folded, since they lie too high.
static TOO_HIGH: LazyLock<Vec<Cased>> = LazyLock::new(|| cased(LAST_FOLDED + 1..=65_535));

fn cased(points: RangeInclusive<u16>) -> Vec<Cased> {
    points
        .map(|point| (point, lower_case(point)))
        .filter(|(capital, small)| capital != small)
        .collect()
}

/// The capitals whose lower case is one of these letters.
fn of_letters(cased: &[Cased], letters: &[u16]) -> Vec<u16> {
    let of_them = cased.iter().filter(|(_, small)| letters.contains(small));
    of_them.map(|&(capital, _)| capital).collect()
}

/// The lower cases of capitals, each once.
fn small(cased: &[Cased]) -> Vec<u16> {
    let mut small: Vec<u16> = cased.iter().map(|&(_, small)| small).collect();
    small.sort_unstable();
    small.dedup();
    small
}

/// The lower case of a capital, or a capital of a letter that has one.
fn other_case(prng: &mut Prng, point: u16) -> u16 {
    let capitals = of_letters(&FOLDED, &[point]);
    if capitals.is_empty() {
        lower_case(point)
    } else {
        prng.one_of(&capitals)
    }
}

/// An alphabet: code points that are all unlike and none a surrogate, the boundary's first. Those at the edges are met often, and so are small letters that are folded to, at times beside their capitals.
pub fn alphabet(prng: &mut Prng, count: usize) -> Vec<u16> {
    let mut points: Vec<u16> = Vec::new();
    while points.len() < count {
        let point = match prng.weighted(&[6, 2, 25, 32, 5, 6, 2, 12, 10]) {
            0 => prng.one_of(&[1, 55_295, 57_344, 65_535]),
            1 => prng.one_of(&[0x69, 0xff, 0x130, 0x131, 0x178, 383, 384]),
            2 => prng.between(33, 255) as u16,
            3 => prng.one_of(&FOLDED).1,
            4 => prng.one_of(&FOLDED).0,
            5 => prng.one_of(&TOO_HIGH).1,
            6 => prng.one_of(&TOO_HIGH).0,
            7 if !points.is_empty() => {
                let letter = prng.one_of(&points);
                other_case(prng, letter)
            }
            _ => prng.between(1, 65_535) as u16,
        };
        if !SURROGATES.contains(&point) && !points.contains(&point) {
            points.push(point);
        }
    }
    points
}

/// Code points as bytes.
pub fn point_bytes(points: &[u16]) -> Vec<u8> {
    points
        .iter()
        .flat_map(|point| point.to_le_bytes())
        .collect()
}

/// One of some code points, or of all where there are none.
fn some_point(prng: &mut Prng, points: &[u16]) -> u16 {
    if points.is_empty() {
        prng.below(65_536) as u16
    } else {
        prng.one_of(points)
    }
}

/// A code point that has no letter, or seems to have one, or has one by chance.
fn strange(prng: &mut Prng, letters: &[u16]) -> u16 {
    let letter = prng.one_of(letters);
    match prng.weighted(&[2, 1, 1, 2, 2, 4, 4, 4, 2, 2, 1, 2]) {
        0 => 0,
        1 => prng.one_of(&[55_296, 56_319, 56_320, 57_343]),
        2 => prng.between(55_296, 57_343) as u16,
        3 => prng.one_of(&[383, 384, 385, 511, 512, 65_535]),
        4 => letters[0],
        5 => some_point(prng, &of_letters(&FOLDED, &letters[..1])),
        6 => some_point(prng, &of_letters(&TOO_HIGH, letters)),
        7 => {
            let small = letters[1..].iter().map(|&letter| lower_case(letter));
            let small: Vec<u16> = small.filter(|point| !letters.contains(point)).collect();
            some_point(prng, &small)
        }
        8 => prng.one_of(&FOLDED).0,
        // What a number cut short or taken the other way round would find.
        9 => prng.one_of(&[
            letter ^ 256,
            letter.wrapping_add(384),
            letter.swap_bytes(),
            letter & 255,
        ]),
        10 => prng.one_of(&[letter.wrapping_add(1), letter.wrapping_sub(1)]),
        _ => prng.below(65_536) as u16,
    }
}

/// Code points for spelling, as bytes: mostly letters and capitals of letters.
pub fn points_given(prng: &mut Prng, grammar: &Grammar) -> Vec<u8> {
    let letters = &grammar.letters[..];
    let count = match prng.weighted(&[66, 5, 5, 8, 7, 4, 5]) {
        0 => prng.between(1, 8),
        1 => prng.between(9, 30),
        2 => 31,
        3 => 32,
        4 => 33,
        5 => 0,
        _ if prng.percent(5) => 32_769,
        _ => prng.one_of(&[34, 40, 64, 127, 128, 129, 255, 256, 257, 300]),
    };
    let capitals = of_letters(&FOLDED, &letters[1..]);
    let mut points: Vec<u16> = (0..count)
        .map(|_| {
            if !capitals.is_empty() && prng.percent(40) {
                prng.one_of(&capitals)
            } else {
                prng.one_of(&letters[1..])
            }
        })
        .collect();
    if count > 0 && prng.percent(30) {
        let inner = prng.below(count);
        let place = prng.one_of(&[0, inner, count - 1]);
        points[place] = strange(prng, letters);
    }
    let mut bytes = point_bytes(&points);
    match prng.below(24) {
        0 => drop(bytes.pop()),
        1 => bytes.push(prng.one_of(&[0, 97])),
        _ => {}
    }
    bytes
}

/// Code points for a refused image, as bytes.
pub fn any_points(prng: &mut Prng) -> Vec<u8> {
    let count = prng.one_of(&[0, 1, 2, 2, 4, 6, 64, 65, 66]);
    if prng.percent(50) {
        prng.bytes(count)
    } else {
        [97, 0].into_iter().cycle().take(count).collect()
    }
}

/// The length of an output for so many letters.
pub fn letters_room(prng: &mut Prng, letters: usize) -> usize {
    match prng.weighted(&[30, 15, 15, 5, 15, 20]) {
        0 => letters.min(1_000),
        1 => letters.saturating_sub(1).min(1_000),
        2 => letters.min(1_000) + 1,
        3 => 0,
        4 => 40,
        _ => prng.below(40),
    }
}

/// A trial of the folding: an image with these letters beside the boundary, and code points that are each given alone.
pub struct Trial {
    pub draft: Draft,
    pub points: Vec<u16>,
}

/// A grammar with these letters beside the boundary, and no more than a grammar has to have.
fn bare(letters: &[u16]) -> Draft {
    // Of private use, so that nothing is folded to it.
    let boundary = 0xe000;
    let entry = DraftEntry::with_one_way(Vec::new(), END, 0);
    Draft {
        image_form: 1,
        letters: [&[boundary], letters].concat(),
        pairs: vec![(2, 2)],
        sets: Vec::new(),
        tables: Vec::new(),
        lexicons: vec![vec![entry]],
    }
}

/// Trials that notice a code point that is folded otherwise: one of the first 384 to another of them or to the lower case of a capital above them, and any other to a small letter that is folded to or to its own lower case.
pub fn folding_trials() -> Vec<Trial> {
    let mut trials = Vec::new();
    let mut add = |letters: &[u16], points: Vec<u16>| {
        trials.push(Trial {
            draft: bare(letters),
            points,
        });
    };
    // With every small letter that is folded to in some image, each capital tells what it becomes, and no other code point may become one of them.
    for letters in small(&FOLDED).chunks(MOST) {
        add(letters, (0..=65_535).collect());
    }
    // A code point that stays may become no other of the first 384 either: 5 * 7 * 11 is more, so two of these differ by one of the remainders, and some image has the one and not the other.
    for divisor in [5, 7, 11] {
        for remainder in 0..divisor {
            let points = 1..=LAST_FOLDED;
            let letters: Vec<u16> = points.filter(|p| p % divisor == remainder).collect();
            add(&letters, (0..=LAST_FOLDED).collect());
        }
    }
    // Nor is a capital above them folded to its own lower case, or one of them to such a letter.
    for letters in small(&TOO_HIGH).chunks(MOST) {
        let capitals = of_letters(&TOO_HIGH, letters);
        add(letters, (0..=LAST_FOLDED).chain(capitals).collect());
    }
    trials
}

#[cfg(test)]
mod tests {
    use super::{folding_trials, points_given, Trial};
    use crate::grammars::grammar;
    use crate::prng::Prng;
    use other_engine::calls::spell;
    use other_engine::folding::folded;
    use other_engine::image::read;

    #[test]
    fn capitals_are_met_in_every_way() {
        let mut prng = Prng::new(1);
        let mut alphabets = [0; 4];
        let (mut spelled, mut refused) = (0, 0);
        for _ in 0..1_000 {
            let known = read(&grammar(&mut prng).image());
            let Ok(grammar) = &known else { continue };
            let letters = &grammar.letters;
            let folds_to = |to: &[u16]| {
                let mut capitals = (0..384).filter(|point| !letters.contains(point));
                capitals.any(|point| folded(point) != point && to.contains(&folded(point)))
            };
            let beside = letters[1..]
                .iter()
                .any(|&point| folded(point) != point && letters.contains(&folded(point)));
            let ways = [
                folds_to(&letters[1..]),
                folds_to(&letters[..1]),
                letters[1..].iter().any(|&point| folded(point) != point),
                beside,
            ];
            for (count, way) in alphabets.iter_mut().zip(ways) {
                *count += usize::from(way);
            }
            match spell(&known, &points_given(&mut prng, grammar)) {
                Ok(_) => spelled += 1,
                Err(_) => refused += 1,
            }
        }
        let [folded, boundary, capital, beside] = alphabets;
        assert!(folded > 800, "{alphabets:?}");
        assert!(boundary > 200, "{alphabets:?}");
        assert!(capital > 300, "{alphabets:?}");
        assert!(beside > 100, "{alphabets:?}");
        assert!(spelled > 500 && refused > 200, "{spelled} {refused}");
    }

    #[test]
    fn none_of_the_first_384_can_be_folded_to_another_unnoticed() {
        let trials = folding_trials();
        for Trial { draft, .. } in &trials {
            assert!(read(&draft.image()).is_ok());
        }
        for point in 0..384u16 {
            let told: Vec<&[u16]> = trials
                .iter()
                .filter(|trial| trial.points.contains(&point))
                .map(|trial| &trial.draft.letters[1..])
                .filter(|letters| !letters.contains(&point))
                .collect();
            for other in (1..384).filter(|&other| other != folded(point)) {
                let has =
                    |letters: &&[u16]| letters.contains(&other) || letters.contains(&folded(point));
                // A code point taken for itself is as one with no letter.
                assert!(told.iter().any(has), "{point} as {other}");
            }
        }
    }
}
