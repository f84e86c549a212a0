//! Spellings are of several sorts, by what becomes of their code points and by the one thing for which they are refused.

use crate::met::met;
use draw::points::SURROGATES;
use other_engine::calls::{letter_spelled, numbers};
use other_engine::folding::{folded, lower_case, LAST_FOLDED};
use other_engine::grammar::Grammar;

/// The sorts of spellings that should be met: those that have a word, then those refused with 9, with 23 and with 24.
pub const SORTS: [&str; 15] = [
    "a code point folded",
    "a capital that stays",
    "a capital that stays beside its lower case",
    "32 letters",
    "bytes past the word",
    "an odd byte",
    "33 code points",
    "nought",
    "a surrogate",
    "the boundary",
    "a capital of the boundary",
    "a capital too high",
    "a lower case of a capital",
    "no letter and no room",
    "a byte too few",
];

/// The sorts that a spelling is of.
pub fn sorts(grammar: &Grammar, points: &[u8], room: usize) -> Vec<&'static str> {
    let numbers = numbers(points);
    let count = numbers.len();
    if points.len() % 2 == 1 || !(1..=32).contains(&count) {
        return met(&[
            ("an odd byte", (1..=32).contains(&count)),
            ("33 code points", points.len() == 66),
        ]);
    }
    let without: Vec<u16> = numbers
        .iter()
        .copied()
        .filter(|&point| letter_spelled(grammar, point).is_none())
        .collect();
    match without[..] {
        [] if count <= room => spelled(grammar, &numbers, room),
        [] => met(&[("a byte too few", count == room + 1)]),
        [point] => stray(grammar, point, count > room),
        _ => Vec::new(),
    }
}

fn spelled(grammar: &Grammar, numbers: &[u16], room: usize) -> Vec<&'static str> {
    let is_letter = |point: u16| grammar.letter(point).is_some();
    let stays = |point: u16| is_letter(point) && folded(point) != point;
    let some = |is: &dyn Fn(u16) -> bool| numbers.iter().any(|&point| is(point));
    met(&[
        ("a code point folded", some(&|point| !is_letter(point))),
        ("a capital that stays", some(&stays)),
        (
            "a capital that stays beside its lower case",
            some(&|point| stays(point) && is_letter(folded(point))),
        ),
        ("32 letters", numbers.len() == 32),
        ("bytes past the word", numbers.len() < room),
    ])
}

/// Of the one code point that has no letter of a word.
fn stray(grammar: &Grammar, point: u16, no_room: bool) -> Vec<&'static str> {
    let is_letter = |point: u16| grammar.letter(point).is_some();
    let mut letters = grammar.letters[1..].iter().copied();
    let is_lower_case = letters.any(|letter| folded(letter) != letter && folded(letter) == point);
    met(&[
        ("nought", point == 0),
        ("a surrogate", SURROGATES.contains(&point)),
        ("the boundary", is_letter(point)),
        (
            "a capital of the boundary",
            !is_letter(point) && is_letter(folded(point)),
        ),
        (
            "a capital too high",
            point > LAST_FOLDED && letter_spelled(grammar, lower_case(point)).is_some(),
        ),
        (
            "a lower case of a capital",
            !is_letter(point) && is_lower_case,
        ),
        ("no letter and no room", no_room),
    ])
}
