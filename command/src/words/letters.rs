//! The letters of characters, which the library alone knows: it is asked for a character once a run.

use crate::library::{self, Reply};
use crate::text::Grammar;
use std::sync::atomic::{AtomicU8, Ordering};

/// In the place of a letter: a word has letters from 2 on.
const NOT_ASKED: u8 = 0;
const NO_LETTER: u8 = 1;
/// Letters are below this: the letter of another character, to which this one is folded.
const FOLDED: u8 = 128;

/// A letter, and whether its own character is another one.
#[derive(Clone, Copy, Debug, PartialEq, Eq)]
pub struct Letter {
    pub number: u8,
    pub folded: bool,
}

/// Threads share one: what two of them ask for at once, both are told alike.
pub struct Letters<'a> {
    image: &'a [u8],
    /// The characters of letters 1, 2, ..
    characters: Vec<char>,
    known: Vec<AtomicU8>,
}

impl<'a> Letters<'a> {
    pub fn new(image: &'a [u8], grammar: &Grammar) -> Letters<'a> {
        let known = std::iter::repeat_with(|| AtomicU8::new(NOT_ASKED)).take(65_536).collect();
        Letters { image, characters: grammar.alphabet.letters().collect(), known }
    }

    /// The letter of a character. The call takes two bytes, and above them an image has no letter.
    pub fn of(&self, character: char) -> Option<Letter> {
        let place = self.known.get(u32::from(character) as usize)?;
        let known = match place.load(Ordering::Relaxed) {
            NOT_ASKED => self.ask(character, place),
            known => known,
        };
        (known != NO_LETTER).then_some(Letter { number: known % FOLDED, folded: known >= FOLDED })
    }

    #[cold]
    fn ask(&self, character: char, place: &AtomicU8) -> u8 {
        let points = (u32::from(character) as u16).to_le_bytes();
        let mut letter = [NO_LETTER];
        let known = match library::spell(self.image, &points, &mut letter) {
            Reply::All(1) if self.characters.get(usize::from(letter[0]) - 1) == Some(&character) => letter[0],
            Reply::All(1) => letter[0] + FOLDED,
            _ => NO_LETTER,
        };
        place.store(known, Ordering::Relaxed);
        known
    }
}
