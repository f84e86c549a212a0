//! Named sets of letters, for the sides of a rule's columns.

use crate::text::alphabet::{self, Alphabet, ANY, BOUNDARY, NULL};
use crate::text::fault::{Fault, Faults};
use crate::text::hints::letter_meant;
use crate::text::limits;
use crate::text::lines::{name, one_character, Word};
use crate::text::sections::{Keyword, Section};

/// The side of a column that names set 0; those of the other sets follow.
pub const FIRST_SET: u8 = 128;

#[derive(Debug)]
pub struct Set {
    pub name: String,
    /// In the order of the text; the null and the boundary may be among them.
    pub letters: Vec<u8>,
    /// Where it stands in the text; 0 where the grammar is an image's.
    pub line: usize,
}

/// Sets 0, 1, ..
#[derive(Debug)]
pub struct Sets(Vec<Set>);

impl Sets {
    pub fn of(sets: Vec<Set>) -> Sets {
        Sets(sets)
    }

    pub fn read(sections: &[Section], alphabet: &Alphabet) -> Result<Sets, Faults> {
        if let Some(first_over) = sections.get(*limits::SETS.end()) {
            limits::within(&limits::SETS, sections.len(), "sets", first_over.line)?;
        }
        let mut faults = Faults::default();
        let mut sets = Vec::new();
        for (at, section) in sections.iter().enumerate() {
            let name = read_name(section, alphabet).and_then(|name| is_first(name, section, &sections[..at]));
            if let Some(name) = faults.keep(name) {
                let letters = read_letters(section, name, alphabet, &mut faults);
                sets.push(Set { name: name.to_string(), letters, line: section.line });
            }
        }
        faults.or(Sets(sets))
    }

    pub fn all(&self) -> &[Set] {
        &self.0
    }

    pub fn all_mut(&mut self) -> &mut [Set] {
        &mut self.0
    }

    /// The side of a column that the name of a set stands for.
    pub fn side(&self, name: &str) -> Option<u8> {
        let at = self.0.iter().position(|set| set.name == name)?;
        u8::try_from(at).ok()?.checked_add(FIRST_SET)
    }

    /// The set that a side names; none where it is a letter or any.
    pub fn named_by(&self, side: u8) -> Option<&Set> {
        self.0.get(usize::from(side.checked_sub(FIRST_SET)?))
    }
}

/// A name that nothing else in a column could be taken for.
fn read_name<'a>(section: &Section<'a>, alphabet: &Alphabet) -> Result<&'a str, Fault> {
    let Some(&Word::Bare(name)) = section.head.first() else {
        return Err(Fault::new(section.line, "SUBSET takes a name, without quotation marks, and then letters"));
    };
    let taken = match one_character(name).and_then(|character| alphabet.side(character)) {
        None if Keyword::named(name).is_some() => "it is a keyword",
        None => return Ok(name),
        Some(NULL) => "it is the null",
        Some(BOUNDARY) => "it is the boundary",
        Some(ANY) => "it stands for any letter",
        Some(_) => "it is a letter; is the name missing?",
    };
    Err(Fault::new(section.line, format!("{name} cannot name a set: {taken}")))
}

/// `name` where no section before has it.
fn is_first<'a>(name: &'a str, section: &Section, before: &[Section]) -> Result<&'a str, Fault> {
    match before.iter().find(|other| other.head.first() == Some(&Word::Bare(name))) {
        Some(first) => {
            Err(Fault::new(section.line, format!("a second set {name}; the first is in line {}", first.line)))
        }
        None => Ok(name),
    }
}

/// All words after the name.
fn read_letters(section: &Section, set: &str, alphabet: &Alphabet, faults: &mut Faults) -> Vec<u8> {
    let mut letters = Vec::new();
    let words: Vec<_> = section.words().skip(1).collect();
    if words.is_empty() {
        faults.add(section.line, format!("set {set} has no letters"));
    }
    for (line, word) in words {
        let letter = read_letter(word, line, alphabet).and_then(|letter| {
            if letters.contains(&letter) {
                let character = name(alphabet.character(letter));
                return Err(Fault::new(line, format!("{character} is in set {set} already")));
            }
            Ok(letter)
        });
        letters.extend(faults.keep(letter));
    }
    letters
}

fn read_letter(word: Word, line: usize, alphabet: &Alphabet) -> Result<u8, Fault> {
    let character = alphabet::read_character(word, line)?;
    let what = match alphabet.side(character) {
        None => format!("{} is no letter of the alphabet{}", name(character), letter_meant(character, alphabet)),
        Some(ANY) => format!("{character} stands for any letter, which only a rule's column may"),
        Some(letter) => return Ok(letter),
    };
    Err(Fault::new(line, what))
}
