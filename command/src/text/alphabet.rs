//! The letters of a grammar by number, and the characters that stand for the null and for any letter.

use crate::text::fault::{Fault, Faults};
use crate::text::hints::one_letter_meant;
use crate::text::limits;
use crate::text::lines::{name, one_character, Word};
use crate::text::sections::{Keyword, Section, Sections};

/// The null, as a side of a pair or column.
pub const NULL: u8 = 0;
/// The boundary's letter number.
pub const BOUNDARY: u8 = 1;
/// The number of the first letter that words are made of.
pub const FIRST: u8 = 2;
/// Any letter, the null and the boundary too, as a side of a column.
pub const ANY: u8 = 255;

#[derive(Debug)]
pub struct Alphabet {
    boundary: char,
    null: char,
    any: char,
    /// Letters 2, 3, ..
    others: Vec<char>,
    /// The line of each of these in the text.
    lines: Vec<usize>,
}

impl Alphabet {
    /// The alphabet of an image, with characters for the null and for any that are no letters.
    pub fn of(letters: &[char], null: char, any: char) -> Alphabet {
        Alphabet { boundary: letters[0], null, any, others: letters[1..].to_vec(), lines: vec![0; letters.len() - 1] }
    }

    pub fn read(sections: &Sections) -> Result<Alphabet, Faults> {
        let mut alphabet = Alphabet {
            boundary: read_symbol(&sections.boundary)?,
            null: read_symbol(&sections.null)?,
            any: read_symbol(&sections.any)?,
            others: Vec::new(),
            lines: Vec::new(),
        };
        check_symbols(&alphabet, sections)?;
        check_count(&sections.alphabet)?;
        let mut faults = Faults::default();
        for (line, word) in sections.alphabet.words() {
            let letter = alphabet.read_letter(word, line);
            if let Some(letter) = faults.keep(letter) {
                alphabet.others.push(letter);
                alphabet.lines.push(line);
            }
        }
        faults.or(alphabet)
    }

    /// L, the count of letters.
    pub fn count(&self) -> usize {
        1 + self.others.len()
    }

    /// Letters 1, 2, .. L.
    pub fn letters(&self) -> impl Iterator<Item = char> + '_ {
        std::iter::once(self.boundary).chain(self.others.iter().copied())
    }

    pub fn number(&self, letter: char) -> Option<u8> {
        let at = self.letters().position(|other| other == letter)?;
        u8::try_from(at).ok()?.checked_add(BOUNDARY)
    }

    /// The side of a pair or column that a character stands for.
    pub fn side(&self, character: char) -> Option<u8> {
        match character {
            c if c == self.null => Some(NULL),
            c if c == self.any => Some(ANY),
            c => self.number(c),
        }
    }

    /// The character that stands for a side.
    pub fn character(&self, side: u8) -> char {
        match side {
            NULL => self.null,
            BOUNDARY => self.boundary,
            ANY => self.any,
            letter => self.others[usize::from(letter - FIRST)],
        }
    }

    /// Where the text lists a letter from 2 on; 0 where the grammar is an image's.
    pub fn line(&self, letter: u8) -> usize {
        self.lines[usize::from(letter - FIRST)]
    }

    fn read_letter(&self, word: Word, line: usize) -> Result<char, Fault> {
        let letter = read_character(word, line)?;
        let taken = match self.side(letter) {
            None => return Ok(letter),
            Some(NULL) => "is the null",
            Some(BOUNDARY) => "is the boundary, letter 1 without being listed",
            Some(ANY) => "stands for any letter",
            Some(_) => "is listed already",
        };
        Err(Fault::new(line, format!("letter {} {taken}", name(letter))))
    }
}

/// The one character that a declaration such as NULL names.
fn read_symbol(section: &Section) -> Result<char, Fault> {
    let words: Vec<_> = section.words().collect();
    match words[..] {
        [(line, word)] => read_character(word, line),
        [] => {
            Err(Fault::new(section.line, format!("{} takes one character, and none is here", section.keyword.name())))
        }
        [_, (line, second), ..] => {
            let (keyword, second) = (section.keyword.name(), second.text());
            let hint = if Keyword::named(second).is_some() { ", which begins a line of its own" } else { "" };
            Err(Fault::new(line, format!("{keyword} takes one character; {second} is one too many{hint}")))
        }
    }
}

/// A character that may be a letter: one code point that fits two bytes.
pub fn read_character(word: Word, line: usize) -> Result<char, Fault> {
    let Some(text) = word.bare() else {
        return Err(Fault::new(line, format!("\"{}\": a letter stands without quotation marks", word.text())));
    };
    match one_character(text) {
        Some(c) if u32::from(c) <= limits::CODE_POINT => Ok(c),
        Some(c) => Err(Fault::new(line, format!("letter {} lies above U+FFFF", name(c)))),
        None => Err(Fault::new(line, format!("{text}: {}", not_one_character(text)))),
    }
}

/// What looks like one letter may be two code points, a letter and its accent.
fn not_one_character(text: &str) -> String {
    let points: Vec<_> = text.chars().map(|c| format!("U+{:04X}", u32::from(c))).collect();
    format!("a letter is one character, and this is {}{}", points.join(" "), one_letter_meant(text))
}

fn check_count(section: &Section) -> Result<usize, Fault> {
    let count = 1 + section.words().count();
    let line = section.line_of(limits::LETTERS.end() - 1);
    limits::within(&limits::LETTERS, count, "letters, counting the boundary", line)
}

fn check_symbols(alphabet: &Alphabet, sections: &Sections) -> Result<(), Fault> {
    if alphabet.null == alphabet.boundary {
        return Err(Fault::new(sections.null.line, "NULL and BOUNDARY are the same character"));
    }
    if alphabet.any == alphabet.boundary || alphabet.any == alphabet.null {
        return Err(Fault::new(sections.any.line, "ANY is also NULL or BOUNDARY"));
    }
    Ok(())
}
