//! A word as it is written becomes a record of letters, or is unread for a reason.

use super::accents::composed;
use super::letters::Letters;
use crate::library::RECORD;
use std::fmt;

/// The letters that a record has places for; a length above tells the library that there are more.
const MOST_LETTERS: usize = RECORD - 1;
const BLANKS: [u8; 3] = [b' ', b'\t', b'\r'];

/// Why a word is unread.
#[derive(Clone, Copy, Debug, PartialEq, Eq)]
pub enum Reason {
    NotUtf8,
    Stray(char),
}

impl fmt::Display for Reason {
    fn fmt(&self, f: &mut fmt::Formatter) -> fmt::Result {
        match *self {
            Reason::NotUtf8 => write!(f, "a byte that is not UTF-8"),
            Reason::Stray(character) if is_seen(character) => {
                write!(f, "{character} (U+{:04X}) is no letter of a word", u32::from(character))
            }
            Reason::Stray(character) => write!(f, "U+{:04X} is no letter of a word", u32::from(character)),
        }
    }
}

/// Not so marks, which cling to what stands before them, and what cannot be seen at all.
fn is_seen(character: char) -> bool {
    matches!(character, '!'..='~' | '\u{A1}'..='\u{2FF}' if character != '\u{AD}') || character.is_alphanumeric()
}

/// What was done to a word to spell it.
#[derive(Clone, Copy, Debug, Default, PartialEq, Eq)]
pub struct Done {
    /// Capitals became small letters.
    pub folded: bool,
    /// Accents were joined with their letters.
    pub composed: bool,
}

/// Without the blanks around it.
pub fn trimmed(line: &[u8]) -> &[u8] {
    let line = &line[blanks_before(line)..];
    let last = line.iter().rposition(|byte| !BLANKS.contains(byte));
    &line[..last.map_or(0, |last| last + 1)]
}

/// How many blanks a line begins with.
pub fn blanks_before(line: &[u8]) -> usize {
    line.iter().position(|byte| !BLANKS.contains(byte)).unwrap_or(line.len())
}

/// Spells a word into a record. Accents are joined only where a word cannot be spelled as it stands, so that a grammar may
/// have an accent for a letter of its own.
pub fn spell(word: &[u8], letters: &Letters, record: &mut [u8; RECORD]) -> Result<Done, Reason> {
    let word = std::str::from_utf8(word).map_err(|_| Reason::NotUtf8)?;
    let reason = match spell_text(word, letters, record) {
        Ok(folded) => return Ok(Done { folded, composed: false }),
        Err(reason) => reason,
    };
    let composed = composed(word, |character| letters.of(character).is_some()).ok_or(reason)?;
    spell_text(&composed, letters, record).map(|folded| Done { folded, composed: true })
}

/// Whether a letter was folded. A character without a letter is found however late it comes.
fn spell_text(word: &str, letters: &Letters, record: &mut [u8; RECORD]) -> Result<bool, Reason> {
    let mut count = 0;
    let mut folded = false;
    for character in word.chars() {
        let letter = letters.of(character).ok_or(Reason::Stray(character))?;
        if count < MOST_LETTERS {
            record[1 + count] = letter.number;
        }
        count += 1;
        folded |= letter.folded;
    }
    record[0] = count.min(RECORD) as u8;
    Ok(folded)
}

#[cfg(test)]
mod tests {
    use super::*;
    use crate::text::{read_grammar, sealed_image};

    /// Letters from 2 on: a e n é ñ, an acute by itself, and Z.
    const TEXT: &str = "BOUNDARY #\nNULL 0\nANY @\nALPHABET a e n é ñ \u{301} Z\nPAIRS a:a\nLEXICON L\na #\nEND\n";

    fn spelled(text: &str, word: &[u8]) -> Result<(Vec<u8>, Done), Reason> {
        let grammar = read_grammar(text.as_bytes()).unwrap();
        let image = sealed_image(&grammar);
        let mut record = [0; RECORD];
        let done = spell(word, &Letters::new(&image, &grammar), &mut record)?;
        Ok((record[..=usize::from(record[0]).min(MOST_LETTERS)].to_vec(), done))
    }

    fn gives(text: &str, word: &str, letters: &[u8], folded: bool, composed: bool) {
        let right = [&[letters.len() as u8], letters].concat();
        assert_eq!(spelled(text, word.as_bytes()), Ok((right, Done { folded, composed })), "{word}");
    }

    #[test]
    fn capitals_are_folded_unless_they_are_letters() {
        gives(TEXT, "", &[], false, false);
        gives(TEXT, "anéñZ", &[2, 4, 5, 6, 8], false, false);
        gives(TEXT, "aNÉÑ", &[2, 4, 5, 6], true, false);
    }

    #[test]
    fn accents_are_joined_unless_they_are_letters() {
        gives(TEXT, "n\u{303}e\u{301}", &[6, 3, 7], false, true);
        gives(TEXT, "e\u{301}", &[3, 7], false, false);
        gives(TEXT, "N\u{303}", &[6], true, true);
        let without = TEXT.replace("\u{301} ", "");
        gives(&without, "e\u{301}E\u{301}n\u{303}", &[5, 5, 6], true, true);
    }

    #[test]
    fn what_cannot_be_spelled_has_a_reason() {
        let told = |word: &[u8]| spelled(TEXT, word).unwrap_err().to_string();
        assert_eq!(told("axb".as_bytes()), "x (U+0078) is no letter of a word");
        assert_eq!(told("o\u{301}b".as_bytes()), "o (U+006F) is no letter of a word");
        assert_eq!(told("n\u{303}a\u{308}".as_bytes()), "ä (U+00E4) is no letter of a word");
        assert_eq!(told("a#".as_bytes()), "# (U+0023) is no letter of a word");
        assert_eq!(told("a\u{308}\u{200b}".as_bytes()), "ä (U+00E4) is no letter of a word");
        assert_eq!(told("a\u{200b}".as_bytes()), "U+200B is no letter of a word");
        assert_eq!(told("\u{10061}".as_bytes()), "U+10061 is no letter of a word");
        assert_eq!(told(b"a\xff"), "a byte that is not UTF-8");
        assert_eq!(told(&[&[b'a'; 40][..], b"x"].concat()), "x (U+0078) is no letter of a word");
    }

    #[test]
    fn a_word_too_long_has_a_length_that_is_refused() {
        for (count, length) in [(31, 31), (32, 32), (33, 33), (34, 33), (70_000, 33)] {
            assert_eq!(spelled(TEXT, &vec![b'a'; count]).unwrap().0[0], length);
        }
    }

    #[test]
    fn blanks_around_a_word_are_dropped() {
        for (line, word) in [(" \ta b\r", "a b"), ("", ""), (" \r\t", ""), ("a", "a"), ("\u{a0}a", "\u{a0}a")] {
            assert_eq!(trimmed(line.as_bytes()), word.as_bytes());
        }
    }
}
