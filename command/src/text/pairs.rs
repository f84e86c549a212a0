//! The feasible pairs of a lexical and a surface letter, in their order.

use crate::text::alphabet::{Alphabet, ANY, BOUNDARY, NULL};
use crate::text::fault::{Fault, Faults};
use crate::text::hints::{letter_meant, pair_meant};
use crate::text::limits;
use crate::text::lines::{name, Word};
use crate::text::sections::Section;

#[derive(Clone, Copy, Debug, PartialEq, Eq)]
pub struct Pair {
    pub lexical: u8,
    pub surface: u8,
}

/// The pair that every rule is fed before and after a pairing; it is not listed.
pub const BOUNDARY_PAIR: Pair = Pair { lexical: BOUNDARY, surface: BOUNDARY };

impl Pair {
    pub fn show(self, alphabet: &Alphabet) -> String {
        let (lexical, surface) = (alphabet.character(self.lexical), alphabet.character(self.surface));
        format!("{lexical}:{surface}")
    }
}

pub fn read(section: &Section, alphabet: &Alphabet) -> Result<Vec<Pair>, Faults> {
    let line = section.line_of(*limits::PAIRS.end());
    limits::within(&limits::PAIRS, section.words().count(), "pairs", line)?;
    let mut faults = Faults::default();
    let mut pairs = Vec::new();
    for (line, word) in section.words() {
        let pair = read_pair(word, line, alphabet).and_then(|pair| {
            if pairs.contains(&pair) {
                return Err(Fault::new(line, format!("pair {} is listed already", pair.show(alphabet))));
            }
            Ok(pair)
        });
        pairs.extend(faults.keep(pair));
    }
    faults.or(pairs)
}

fn read_pair(word: Word, line: usize, alphabet: &Alphabet) -> Result<Pair, Fault> {
    let Some((lexical, surface)) = word.bare().and_then(split_pair) else {
        let (text, hint) = (word.text(), pair_meant(word, alphabet));
        return Err(Fault::new(line, format!("{text}: a pair is written as two letters and a colon, a:b{hint}")));
    };
    let side = |character| {
        let at_fault = |what| Fault::new(line, format!("pair {lexical}:{surface}: {what}"));
        read_side(character, alphabet).map_err(at_fault)
    };
    let pair = Pair { lexical: side(lexical)?, surface: side(surface)? };
    if pair.lexical == NULL && pair.surface == NULL {
        return Err(Fault::new(line, format!("{lexical}:{surface} is a pair of two nulls")));
    }
    Ok(pair)
}

/// Three characters with a colon in the middle, so that the colon may be a letter.
fn split_pair(text: &str) -> Option<(char, char)> {
    let mut characters = text.chars();
    match (characters.next(), characters.next(), characters.next(), characters.next()) {
        (Some(lexical), Some(':'), Some(surface), None) => Some((lexical, surface)),
        _ => None,
    }
}

fn read_side(character: char, alphabet: &Alphabet) -> Result<u8, String> {
    match alphabet.side(character) {
        None => Err(format!("{} is no letter of the alphabet{}", name(character), letter_meant(character, alphabet))),
        Some(BOUNDARY) => Err("the boundary pairs with itself only, and is not listed".to_string()),
        Some(ANY) => Err(format!("{character} stands for any letter, which only a rule's column may")),
        Some(side) => Ok(side),
    }
}
