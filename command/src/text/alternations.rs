//! Named choices of ways on: an entry that names one may go on to each of its lexicons.

use crate::text::alphabet::Alphabet;
use crate::text::continuations::{is_end, Names};
use crate::text::fault::{Fault, Faults};
use crate::text::lines::Word;
use crate::text::sections::{Keyword, Section};
use crate::text::ways::Ways;

#[derive(Debug)]
pub struct Alternation {
    pub name: String,
    pub ways: Ways,
    /// Whether an entry names it; of an image's this is not known, and it counts as named.
    pub is_named: bool,
    /// Where it stands in the text; 0 where the grammar is an image's.
    pub line: usize,
}

/// Reads the choices, and adds their names to those of the lexicons.
pub fn read<'a>(
    sections: &[Section<'a>],
    alphabet: &Alphabet,
    names: &mut Names<'a>,
    faults: &mut Faults,
) -> Vec<Alternation> {
    let mut read = Vec::new();
    for (at, section) in sections.iter().enumerate() {
        let name = read_name(section, alphabet, names).and_then(|name| is_first(name, section, &sections[..at]));
        if let Some(name) = faults.keep(name) {
            let ways = read_ways(section, name, (sections, alphabet, names), faults);
            read.push((name, Alternation { name: name.to_string(), ways, is_named: false, line: section.line }));
        }
    }
    // Only now, since an alternation names lexicons alone.
    names.choices.extend(read.iter().enumerate().map(|(at, (name, one))| (*name, (at, one.ways))));
    read.into_iter().map(|(_, one)| one).collect()
}

fn read_name<'a>(section: &Section<'a>, alphabet: &Alphabet, names: &Names) -> Result<&'a str, Fault> {
    let at_fault = |what: String| Fault::new(section.line, what);
    let Some(&Word::Bare(name)) = section.head.first() else {
        let what = "ALTERNATION takes a name, without quotation marks, and then lexicons";
        return Err(at_fault(what.to_string()));
    };
    if Keyword::named(name).is_some() || is_end(name, alphabet) {
        return Err(at_fault(format!("{name} cannot name an ALTERNATION")));
    }
    match names.lexicons.get(name) {
        Some(&(_, line)) => Err(at_fault(format!(
            "ALTERNATION {name}: a lexicon is called so, in line {line}; an entry can name the lexicon itself"
        ))),
        None => Ok(name),
    }
}

/// `name` where no section before has it.
fn is_first<'a>(name: &'a str, section: &Section, before: &[Section]) -> Result<&'a str, Fault> {
    match before.iter().find(|other| other.head.first() == Some(&Word::Bare(name))) {
        Some(first) => {
            Err(Fault::new(section.line, format!("a second ALTERNATION {name}; the first is in line {}", first.line)))
        }
        None => Ok(name),
    }
}

/// All words after the name.
fn read_ways(
    section: &Section,
    name: &str,
    (sections, alphabet, names): (&[Section], &Alphabet, &Names),
    faults: &mut Faults,
) -> Ways {
    let mut ways = Ways::default();
    let words: Vec<_> = section.words().skip(1).collect();
    if words.is_empty() {
        faults.add(section.line, format!("ALTERNATION {name} names no lexicon"));
    }
    for (line, word) in words {
        let way = match word {
            Word::Quoted(text) => Err(format!("\"{text}\": a lexicon's name stands without quotation marks")),
            Word::Bare(text) if is_end(text, alphabet) => Ok(Ways::END),
            Word::Bare(text) => names.lexicon(text).ok_or_else(|| {
                match sections.iter().any(|other| other.head.first() == Some(&word)) {
                    true => format!("{text} is an ALTERNATION, and an ALTERNATION names lexicons alone"),
                    false => names.unknown(text, alphabet),
                }
            }),
        };
        let new = way.and_then(|way| match ways.meets(way) {
            true => Err(format!("{} is in ALTERNATION {name} already", word.text())),
            false => Ok(way),
        });
        if let Some(way) = faults.keep(new.map_err(|what| Fault::new(line, what))) {
            ways = ways.and(way);
        }
    }
    ways
}
