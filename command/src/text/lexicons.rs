//! Lexicons and their entries: a form, what may follow it, and a gloss.

use crate::text::alphabet::{Alphabet, ANY, BOUNDARY, NULL};
use crate::text::alternations::{self, Alternation};
use crate::text::continuations::{is_end, read_ways, Names};
use crate::text::fault::{Fault, Faults};
use crate::text::hints::{accent_meant, letter_meant};
use crate::text::limits;
use crate::text::lines::{is_alone, is_number, name, number, Line, Word};
use crate::text::pairs::Pair;
use crate::text::sections::{Keyword, Section, Sections};
use crate::text::ways::Ways;

#[derive(Debug)]
pub struct Lexicon {
    pub name: String,
    pub entries: Vec<Entry>,
    /// Where its name stands in the text; 0 where the grammar is an image's.
    pub line: usize,
}

#[derive(Debug)]
pub struct Entry {
    pub form: Vec<u8>,
    pub ways: Ways,
    pub gloss: u16,
    /// The gloss in words; empty where the text has none.
    pub gloss_text: String,
    /// Where it stands in the text.
    pub line: usize,
}

/// The lexicons of a text, and its alternations.
pub fn read(
    sections: &Sections,
    alphabet: &Alphabet,
    pairs: &[Pair],
    faults: &mut Faults,
) -> (Vec<Alternation>, Vec<Lexicon>) {
    if faults.keep(check_counts(&sections.lexicons)).is_none() {
        return Default::default();
    }
    let mut wrong_names = Faults::default();
    let mut names = read_names(&sections.lexicons, alphabet, &mut wrong_names);
    // Continuations lean on the names, and alternations on those of lexicons.
    if let Err(wrong_names) = wrong_names.or(()) {
        faults.extend(wrong_names);
        return Default::default();
    }
    let mut wrong_choices = Faults::default();
    let mut alternations = alternations::read(&sections.alternations, alphabet, &mut names, &mut wrong_choices);
    if let Err(wrong_choices) = wrong_choices.or(()) {
        faults.extend(wrong_choices);
        return Default::default();
    }
    let mut entry_numbers = 0..;
    let mut lexicons = Vec::new();
    for section in &sections.lexicons {
        let numbered = section.body.iter().zip(entry_numbers.by_ref());
        let entries = numbered.map(|(line, number)| read_entry(line, number, alphabet, pairs, &names));
        lexicons.push(Lexicon {
            name: read_name(section, alphabet).unwrap_or_default().to_string(),
            entries: entries.filter_map(|entry| faults.keep(entry)).collect(),
            line: section.line,
        });
        for word in section.body.iter().flat_map(|line| line.words.iter().skip(1)) {
            if let Some(&(at, _)) = word.bare().and_then(|word| names.choices.get(word)) {
                alternations[at].is_named = true;
            }
        }
    }
    (alternations, lexicons)
}

/// The line of a count over its limit is that of the first lexicon or entry too many.
fn check_counts(sections: &[Section]) -> Result<(), Fault> {
    let over = sections.get(*limits::LEXICONS.end()).or(sections.last());
    let line = over.map_or(0, |section| section.line);
    limits::within(&limits::LEXICONS, sections.len(), "lexicons", line)?;
    let lines = || sections.iter().flat_map(|section| &section.body);
    let line = lines().nth(*limits::ENTRIES.end()).map_or(line, |entry| entry.number);
    limits::within(&limits::ENTRIES, lines().count(), "entries", line)?;
    Ok(())
}

fn read_names<'a>(sections: &[Section<'a>], alphabet: &Alphabet, faults: &mut Faults) -> Names<'a> {
    let mut names = Names::default();
    for (number, section) in (0..).zip(sections) {
        let Some(name) = faults.keep(read_name(section, alphabet)) else {
            continue;
        };
        let (first, first_line) = *names.lexicons.entry(name).or_insert((number, section.line));
        if first != number {
            faults.add(section.line, format!("a second lexicon {name}; the first is in line {first_line}"));
        }
    }
    names
}

/// A name that cannot be taken for a keyword or for the end of a word.
fn read_name<'a>(section: &Section<'a>, alphabet: &Alphabet) -> Result<&'a str, Fault> {
    let [Word::Bare(name)] = section.head[..] else {
        let words: Vec<&str> = section.head.iter().map(|word| word.text()).collect();
        let found = if words.is_empty() { "and none is here".to_string() } else { format!("not {}", words.join(" ")) };
        return Err(Fault::new(section.line, format!("LEXICON takes one name, without quotation marks, {found}")));
    };
    if Keyword::named(name).is_some() || is_end(name, alphabet) {
        return Err(Fault::new(section.line, format!("{name} cannot name a lexicon")));
    }
    Ok(name)
}

fn read_entry(line: &Line, number: u16, alphabet: &Alphabet, pairs: &[Pair], names: &Names) -> Result<Entry, Fault> {
    let at_fault = |what: String| Fault::new(line.number, what);
    let Some((form, ways, gloss)) = divide(&line.words) else {
        let what = "an entry is a form, one continuation or more, and perhaps a gloss, a number or in quotation marks";
        return Err(at_fault(format!("{what}{}", entry_meant(&line.words, alphabet))));
    };
    let (gloss, gloss_text) = read_gloss(gloss, number).map_err(at_fault)?;
    Ok(Entry {
        form: read_form(form, alphabet, pairs).map_err(at_fault)?,
        ways: read_ways(&ways, alphabet, names).map_err(at_fault)?,
        gloss,
        gloss_text: gloss_text.to_string(),
        line: line.number,
    })
}

/// An entry's form, what it goes on to, and its gloss: the last word, if it stands in quotation marks or is a number after a
/// continuation.
fn divide<'a>(words: &[Word<'a>]) -> Option<(&'a str, Vec<&'a str>, Word<'a>)> {
    let (gloss, others) = match *words {
        [ref others @ .., gloss @ Word::Quoted(_)] => (gloss, others),
        [_, _, .., gloss @ Word::Bare(last)] if is_number(last) => (gloss, &words[..words.len() - 1]),
        _ => (Word::Quoted(""), words),
    };
    let bare: Vec<&str> = others.iter().map(|word| word.bare()).collect::<Option<_>>()?;
    let (&form, ways) = bare.split_first()?;
    (!ways.is_empty()).then(|| (form, ways.to_vec(), gloss))
}

/// What a line that is no entry may lack, or have too much.
fn entry_meant(words: &[Word], alphabet: &Alphabet) -> String {
    let end = alphabet.character(BOUNDARY);
    let quoted = words.iter().position(|word| word.bare().is_none());
    match (words, quoted) {
        (_, Some(0)) => "; a form stands without quotation marks".to_string(),
        ([_], _) => format!("; the continuation is missing, and {end} ends the word"),
        (_, Some(1)) => format!("; the continuation is missing before the gloss, and {end} ends the word"),
        (_, Some(gloss)) => format!("; {} is one too many, after the gloss", words[gloss + 1].text()),
        _ => String::new(),
    }
}

fn read_form(form: &str, alphabet: &Alphabet, pairs: &[Pair]) -> Result<Vec<u8>, String> {
    if is_alone(form, alphabet.character(NULL)) {
        return Ok(Vec::new());
    }
    let read = |c| read_form_letter(c, alphabet).map_err(|what| format!("form {form}: {what}{}", accent_meant(form)));
    let letters: Vec<u8> = form.chars().map(read).collect::<Result<_, _>>()?;
    if !limits::FORM.contains(&letters.len()) {
        let (found, most) = (letters.len(), limits::FORM.end());
        return Err(format!("form {form} has {found} letters; allowed are {most}"));
    }
    for &letter in &letters {
        check_lexical(letter, alphabet, pairs).map_err(|what| format!("form {form}: {what}"))?;
    }
    Ok(letters)
}

fn read_form_letter(character: char, alphabet: &Alphabet) -> Result<u8, String> {
    match alphabet.side(character) {
        None => Err(format!("{} is no letter of the alphabet{}", name(character), letter_meant(character, alphabet))),
        Some(NULL) => Err(format!("{character} is the null; alone it is an empty form, in a form it cannot stand")),
        Some(BOUNDARY) => Err(format!("{character} is the boundary, which cannot stand in a form")),
        Some(ANY) => Err(format!("{character} stands for any letter, which only a rule's column may")),
        Some(letter) => Ok(letter),
    }
}

/// An entry with a letter that no pair has on its lexical side can never be spelled. A surface letter may
/// have been written for a lexical one, so the fault shows a pair that has it on its surface side.
fn check_lexical(letter: u8, alphabet: &Alphabet, pairs: &[Pair]) -> Result<(), String> {
    if pairs.iter().any(|pair| pair.lexical == letter) {
        return Ok(());
    }
    let what = format!("no pair has {} on its lexical side", name(alphabet.character(letter)));
    match pairs.iter().find(|pair| pair.surface == letter) {
        Some(pair) => Err(format!("{what}; it is a surface side only, as in {}", pair.show(alphabet))),
        None => Err(what),
    }
}

/// A gloss in words gets the entry's own number, so that the list of entries finds it.
fn read_gloss(gloss: Word<'_>, entry: u16) -> Result<(u16, &str), String> {
    match gloss {
        Word::Quoted(text) => Ok((entry, text)),
        Word::Bare(word) => match number(word).and_then(|gloss| u16::try_from(gloss).ok()) {
            // Kept in words too, since the own number alone is what an entry without a gloss has.
            Some(gloss) if gloss == entry => Ok((gloss, word)),
            Some(gloss) => Ok((gloss, "")),
            None => Err(format!("gloss {word}: a gloss is a number from 0 to 65535, or in quotation marks")),
        },
    }
}
