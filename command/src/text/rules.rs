//! Rule tables: columns, final states, and for each state a row of next states.

use crate::nearest::{is_meant, nearest};
use crate::text::columns::{self, Column, Sides};
use crate::text::fault::{Fault, Faults};
use crate::text::hints::{accent_meant, digit_meant, letter_meant, quote_meant};
use crate::text::limits;
use crate::text::lines::{name, number, one_character, Line, Word};
use crate::text::pairs::Pair;
use crate::text::sections::Section;

#[derive(Debug)]
pub struct Rule {
    pub name: String,
    pub columns: Vec<Column>,
    /// The place of the column that each pair takes and, last, the boundary pair.
    pub taken: Vec<usize>,
    /// States 1, 2, ..
    pub states: Vec<State>,
    /// Where its first line stands in the text; 0 where the grammar is an image's.
    pub line: usize,
    /// The line of its lexical sides.
    pub sides_line: usize,
}

impl Rule {
    /// Whether the boundary pair, which comes first in every word, leads to failure at once.
    pub fn fails_at_front(&self) -> bool {
        self.next(1, self.boundary()) == 0
    }

    /// The column that the boundary pair takes.
    pub fn boundary(&self) -> usize {
        self.taken[self.taken.len() - 1]
    }

    /// The state that a column leads to from a state.
    pub fn next(&self, state: usize, column: usize) -> usize {
        usize::from(self.states[state - 1].next[column])
    }
}

#[derive(Debug)]
pub struct State {
    pub is_final: bool,
    /// The next state for each column; 0 is failure.
    pub next: Vec<u8>,
    /// Where its row stands in the text.
    pub line: usize,
}

/// What a rule's first line says.
struct Heading<'a> {
    name: &'a str,
    states: usize,
    columns: usize,
}

pub fn read(sections: &[Section], sides: Sides, pairs: &[Pair], faults: &mut Faults) -> Vec<Rule> {
    if let Some(first_over) = sections.get(*limits::RULES.end()) {
        faults.keep(limits::within(&limits::RULES, sections.len(), "rules", first_over.line));
    }
    let rules = sections.iter().map(|section| read_rule(section, sides, pairs));
    rules.filter_map(|rule| faults.keep(rule)).collect()
}

fn read_rule(section: &Section, sides: Sides, pairs: &[Pair]) -> Result<Rule, Fault> {
    let heading = read_heading(section)?;
    let [lexical, surface, rows @ ..] = &section.body[..] else {
        let what = "a rule has a row of lexical sides and a row of surface sides";
        return Err(Fault::new(section.last_line(), what));
    };
    check_order(lexical, rows, &heading, section.line)?;
    let columns = read_columns(lexical, surface, &heading, sides)?;
    let states = read_states(rows, &heading, section.last_line())?;
    let taken = columns::taken(&columns, pairs, sides)
        .map_err(|what| Fault::new(lexical.number, format!("rule \"{}\": {what}", heading.name)))?;
    Ok(Rule { name: heading.name.to_string(), columns, taken, states, line: section.line, sides_line: lexical.number })
}

fn read_heading<'a>(section: &Section<'a>) -> Result<Heading<'a>, Fault> {
    let line = section.line;
    let counts = |states, columns| Some((number(states)?, number(columns)?));
    let heading = match section.head[..] {
        [Word::Quoted(name), Word::Bare(states), Word::Bare(columns)] => {
            counts(states, columns).map(|(states, columns)| Heading { name, states, columns })
        }
        _ => None,
    };
    let heading = heading.ok_or_else(|| {
        let takes = "RULE takes a name in quotation marks, the count of states, and of columns";
        Fault::new(line, format!("{takes}{}", heading_meant(&section.head)))
    })?;
    limits::within(&limits::STATES, heading.states, "states", line)?;
    limits::within(&limits::COLUMNS, heading.columns, "columns", line)?;
    Ok(heading)
}

/// What a rule's first line may lack, or have otherwise.
fn heading_meant(words: &[Word]) -> String {
    let count = |word: &&Word| word.bare().and_then(number).is_none();
    match words {
        [Word::Quoted(_), Word::Bare(one)] if number(one).is_some() => "; a count is missing".to_string(),
        [Word::Quoted(_), counts @ ..] if counts.len() < 2 => "; the counts are missing".to_string(),
        [Word::Quoted(_), counts @ ..] => match counts.iter().find(count) {
            Some(other) => format!("; {} is no count", other.text()),
            None => "; there is a count too many".to_string(),
        },
        [Word::Bare(first), ..] if number(first).is_none() => {
            quote_meant(words).unwrap_or(format!("; {first} is not in quotation marks"))
        }
        _ => "; the name is missing".to_string(),
    }
}

/// States are counted first. The counts of a table that is as wide as they say it is high, and as high as wide, are swapped.
fn check_order(lexical: &Line, rows: &[Line], heading: &Heading, line: usize) -> Result<(), Fault> {
    let (states, columns) = (rows.len(), lexical.words.len());
    if states != columns && (heading.states, heading.columns) == (columns, states) {
        let what =
            format!("the counts are swapped: the table has {states} states, which come first, and {columns} columns");
        return Err(Fault::new(line, what));
    }
    Ok(())
}

fn read_columns(lexical: &Line, surface: &Line, heading: &Heading, sides: Sides) -> Result<Vec<Column>, Fault> {
    let lexical = read_sides(lexical, "lexical", heading, sides)?;
    let surface = read_sides(surface, "surface", heading, sides)?;
    let columns = lexical.into_iter().zip(surface);
    Ok(columns.map(|(lexical, surface)| Column { lexical, surface }).collect())
}

fn read_sides(line: &Line, level: &str, heading: &Heading, sides: Sides) -> Result<Vec<u8>, Fault> {
    if line.words.len() != heading.columns {
        let (found, said) = (line.words.len(), heading.columns);
        let what = format!("{found} {level} sides where the rule has {said} columns");
        return Err(Fault::new(line.number, what));
    }
    line.words.iter().map(|&word| read_side(word, line.number, sides)).collect()
}

fn read_side(word: Word, line: usize, sides: Sides) -> Result<u8, Fault> {
    let side_is = "a side of a column is one character or the name of a set";
    let Some(text) = word.bare() else {
        return Err(Fault::new(line, format!("\"{}\": {side_is}, without quotation marks", word.text())));
    };
    sides.side(text).ok_or_else(|| match one_character(text) {
        Some(c) => Fault::new(line, no_letter(c, sides)),
        None => Fault::new(line, format!("no set is called {text}; {side_is}{}", side_meant(text, sides))),
    })
}

/// What is told of a character that is no side.
pub fn no_letter(character: char, sides: Sides) -> String {
    let hint = letter_meant(character, sides.alphabet);
    format!("{} is no letter of the alphabet, and no set is called so{hint}", name(character))
}

/// What a word that is no side of a column may be.
pub fn side_meant(text: &str, sides: Sides) -> String {
    let named = nearest(text, sides.sets.all().iter().map(|set| set.name.as_str()));
    match text.split_once(':') {
        Some(_) if named.is_none() => "; a pair stands on two rows, its lexical side in the first".to_string(),
        _ if named.is_some() => is_meant(named),
        _ => accent_meant(text),
    }
}

fn read_states(rows: &[Line], heading: &Heading, last_line: usize) -> Result<Vec<State>, Fault> {
    // A row that is missing or out of order is told where it shows.
    for (row, state) in rows.iter().zip(1..=heading.states) {
        read_label(row, state)?;
    }
    if let Some(extra) = rows.get(heading.states) {
        let what = format!("a row more than the rule's {} states", heading.states);
        return Err(Fault::new(extra.number, what));
    }
    if rows.len() < heading.states {
        let what = format!("{} rows where the rule has {} states", rows.len(), heading.states);
        return Err(Fault::new(last_line, what));
    }
    rows.iter().enumerate().map(|(at, row)| read_state(row, at + 1, heading)).collect()
}

/// Whether a state is final: its row begins with its number and a colon, or else a full stop.
fn read_label(row: &Line, state: usize) -> Result<bool, Fault> {
    let label = row.words[0].bare().unwrap_or("");
    if label == format!("{state}:") {
        return Ok(true);
    }
    if label == format!("{state}.") {
        return Ok(false);
    }
    let begins = format!("the row of state {state} begins with {state}: if it is final, else {state}.");
    Err(Fault::new(row.number, format!("{begins}, not with {}", row.words[0].text())))
}

/// A row: the state, and the next states.
fn read_state(row: &Line, state: usize, heading: &Heading) -> Result<State, Fault> {
    let is_final = read_label(row, state)?;
    let next = &row.words[1..];
    if next.len() != heading.columns {
        let what = format!("{} next states where the rule has {} columns", next.len(), heading.columns);
        return Err(Fault::new(row.number, format!("state {state}: {what}")));
    }
    let next = next.iter().map(|&word| read_next(word, row.number, heading));
    Ok(State { is_final, next: next.collect::<Result<_, _>>()?, line: row.number })
}

fn read_next(word: Word, line: usize, heading: &Heading) -> Result<u8, Fault> {
    let next = word.bare().and_then(number).filter(|&next| next <= heading.states);
    next.and_then(|next| u8::try_from(next).ok()).ok_or_else(|| {
        let (text, states) = (word.text(), heading.states);
        Fault::new(line, format!("{text}: a next state is a number from 0 to {states}{}", digit_meant(text)))
    })
}
