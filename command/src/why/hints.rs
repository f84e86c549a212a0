//! Characters of a word that no reading can have, and what may have been meant.

use crate::text::alphabet::{Alphabet, ANY, BOUNDARY, NULL};
use crate::text::lines::name;
use crate::text::Grammar;
use crate::words::{plain, Reason};

/// Why a word cannot be spelled, and what is near.
pub fn unread(reason: Reason, alphabet: &Alphabet) -> String {
    let Reason::Stray(character) = reason else {
        return reason.to_string();
    };
    let near = match alphabet.side(character) {
        Some(NULL) => Some("it stands for no letter".to_string()),
        Some(BOUNDARY) => Some("it is the boundary, the front and the end of every word".to_string()),
        Some(ANY) => Some("it stands for any letter, which only a rule's column may".to_string()),
        _ => near(character, alphabet),
    };
    near.map_or(reason.to_string(), |near| format!("{reason}; {near}"))
}

fn near(character: char, alphabet: &Alphabet) -> Option<String> {
    let is_letter = |other: char| alphabet.number(other).is_some_and(|letter| letter != BOUNDARY);
    let small = small(character);
    if is_letter(small) {
        return Some(format!("its small letter {} is one, but capitals above U+017F are not folded", name(small)));
    }
    if ('\u{300}'..='\u{36f}').contains(&character) {
        return Some("it is an accent, and the letter before it has no character with that accent".to_string());
    }
    let plain = plain(small);
    (plain != small && is_letter(plain)).then(|| format!("without its accent it is one, {}", name(plain)))
}

fn small(character: char) -> char {
    let mut small = character.to_lowercase();
    small.next().filter(|_| small.len() == 0).unwrap_or(character)
}

/// The letters of a word that are the surface side of no pair, each once.
pub fn never_written(grammar: &Grammar, word: &[u8]) -> Vec<u8> {
    let is_written = |letter: u8| grammar.pairs.iter().any(|pair| pair.surface == letter);
    let mut found: Vec<u8> = word.iter().copied().filter(|&letter| !is_written(letter)).collect();
    found.sort_unstable();
    found.dedup();
    found
}

/// What is to be said of such a letter, in short sentences.
pub fn never(letter: u8, grammar: &Grammar) -> Vec<String> {
    let character = grammar.alphabet.character(letter);
    let mut said =
        vec![format!("{} is the surface side of no pair, so that no word with it has a reading", name(character))];
    let pairs = grammar.pairs.iter().filter(|pair| pair.lexical == letter);
    let pairs: Vec<String> = pairs.map(|pair| pair.show(&grammar.alphabet)).collect();
    if !pairs.is_empty() {
        said.push(format!("{character} is a letter of forms, written as in {}", pairs.join(" ")));
    }
    if character.is_uppercase() {
        said.push(format!("{character} is not read as {}, since the grammar has it for a letter", small(character)));
    }
    said
}

/// The word with these letters in lower case.
pub fn lowered(word: &[char], never: &[u8], alphabet: &Alphabet) -> String {
    let is_never = |character: char| alphabet.number(character).is_some_and(|letter| never.contains(&letter));
    word.iter().map(|&c| if is_never(c) { small(c) } else { c }).collect()
}
