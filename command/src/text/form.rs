//! The two forms of an image, which differ in their entries, and which of them a text is written in.

use crate::text::alphabet::Alphabet;
use crate::text::fault::{Fault, Faults};
use crate::text::lexicons::{Entry, Lexicon};
use crate::text::limits;
use crate::text::lines::Word;
use crate::text::sections::Section;

/// The blocks of an image before those of rules and entries, without one of sets: header, letters, pairs, lexicon counts.
const OTHER_BLOCKS: usize = 4;

#[derive(Clone, Copy, Debug, PartialEq, Eq)]
pub enum Form {
    /// Each entry has one way on: a lexicon, or the end of the word.
    One,
    /// An entry has as many as it needs.
    Two,
}

impl Form {
    pub fn numbered(number: usize) -> Option<Form> {
        [Form::One, Form::Two].into_iter().find(|form| form.number() == number)
    }

    pub const fn number(self) -> usize {
        match self {
            Form::One => 1,
            Form::Two => 2,
        }
    }

    pub fn other(self) -> Form {
        match self {
            Form::One => Form::Two,
            Form::Two => Form::One,
        }
    }

    /// Bytes of an entry.
    pub const fn entry(self) -> usize {
        match self {
            Form::One => 16,
            Form::Two => 24,
        }
    }

    pub const fn entries_a_block(self) -> usize {
        match self {
            Form::One => 31,
            Form::Two => 21,
        }
    }

    /// The blocks of an image.
    pub const fn blocks(self, rules: usize, has_sets: bool, entries: usize) -> usize {
        OTHER_BLOCKS + rules + has_sets as usize + entries.div_ceil(self.entries_a_block())
    }

    /// The entries that an image has room for beside its rules and sets.
    pub const fn room(self, rules: usize, has_sets: bool) -> usize {
        let entries = (limits::BLOCKS - self.blocks(rules, has_sets, 0)) * self.entries_a_block();
        let most = *limits::ENTRIES.end();
        if entries < most {
            entries
        } else {
            most
        }
    }
}

/// What asks for a form, and which.
#[derive(Clone, Debug)]
pub struct Asked {
    pub form: Form,
    /// As a fault names it: `--form 1`, `FORM in line 4`.
    pub by: String,
}

/// The form that a text asks for in its section FORM.
pub fn read(section: &Section) -> Result<Asked, Fault> {
    let words: Vec<(usize, Word)> = section.words().collect();
    let form = match words[..] {
        [(_, Word::Bare("1"))] => Form::One,
        [(_, Word::Bare("2"))] => Form::Two,
        _ => {
            let (line, found) = match words.iter().find(|(_, word)| !matches!(word, Word::Bare("1" | "2"))) {
                Some((line, word)) => (*line, format!("not {}", word.text())),
                None if words.is_empty() => (section.line, "and none is here".to_string()),
                None => (words[1].0, format!("and {} is one too many", words[1].1.text())),
            };
            return Err(Fault::new(line, format!("FORM takes 1 or 2, the form of the image, {found}")));
        }
    };
    Ok(Asked { form, by: format!("FORM in line {}", section.line) })
}

/// The form that is asked for, if it serves; where none is asked for, form 1 where it serves, else form 2.
pub fn choose(
    asked: Option<Asked>,
    lexicons: &[Lexicon],
    (rules, has_sets): (usize, bool),
    alphabet: &Alphabet,
) -> Result<Form, Faults> {
    let entries = || lexicons.iter().flat_map(|lexicon| &lexicon.entries);
    let first_many = entries().find(|entry| !entry.ways.is_one());
    let (form, needed) = match (&asked, first_many) {
        (None, None) => return Ok(Form::One),
        (None, Some(entry)) => (Form::Two, format!("which the entry in line {} needs", entry.line)),
        (Some(asked), _) => (asked.form, format!("which {} asks for", asked.by)),
    };
    if form == Form::One {
        let faults =
            entries().filter(|entry| !entry.ways.is_one()).map(|entry| many_ways(entry, &needed, lexicons, alphabet));
        return Faults::from(faults.collect::<Vec<_>>()).or(form);
    }
    let (count, room) = (entries().count(), form.room(rules, has_sets));
    match entries().nth(room) {
        None => Ok(form),
        Some(first_over) => {
            let what =
                format!("{count} entries; an image of form 2, {needed}, has room for {room} with this grammar's rules");
            Err(Fault::new(first_over.line, what).into())
        }
    }
}

fn many_ways(entry: &Entry, needed: &str, lexicons: &[Lexicon], alphabet: &Alphabet) -> Fault {
    let shown = entry.ways.shown(lexicons, alphabet);
    let what =
        format!("{} continuations, {shown}; an image of form 1, {needed}, has one for each entry", entry.ways.count());
    Fault::new(entry.line, what)
}
