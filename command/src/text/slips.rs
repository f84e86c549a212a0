//! Lines that were to open a section: a keyword that is misspelled, or one that another format has.

use crate::nearest::{is_meant, nearest};
use crate::text::fault::{Fault, Faults};
use crate::text::lines::{is_number, one_character, Line, Word};
use crate::text::sections::Keyword;

/// Keywords of PC-KIMMO, and words like them, that a text has not, and what it has in their place.
const ELSEWHERE: [(&str, &str); 12] = [
    ("COMMENT", "a comment begins with ;"),
    ("FEATURES", "what an entry means stands in its gloss"),
    ("FIELDCODE", "an entry is one line: a form, a continuation and a gloss"),
    ("GLOSS", "a gloss is the last word of its entry"),
    ("INCLUDE", "rules and lexicons stand in one file"),
    ("INITIAL", "words begin in the first lexicon"),
    ("ENTRIES", "entries stand under LEXICON and its name, a line each"),
    ("LETTERS", "letters stand under ALPHABET"),
    ("MULTICHAR_SYMBOLS", "a letter is one character"),
    ("SET", "a set of letters is a SUBSET"),
    ("SETS", "a set of letters is a SUBSET"),
    ("TABLE", "a table stands under RULE"),
];

/// A line that may have been meant to open a section.
pub struct Slip {
    fault: Fault,
    /// It may be an entry, a row of a rule or names of lexicons as well, and then is no slip.
    may_be_right: bool,
}

/// The slips of keywords, if the text has faults.
pub fn slips(lines: &[Line]) -> Vec<Slip> {
    let mut slips = Vec::new();
    let mut section = None;
    for line in lines {
        if let Some(keyword) = line.words[0].bare().and_then(Keyword::named) {
            section = Some(keyword);
            continue;
        }
        let may_be_right = matches!(section, Some(Keyword::Rule | Keyword::Alternation | Keyword::Lexicon));
        if let Some(what) = told(&line.words, may_be_right) {
            slips.push(Slip { fault: Fault::new(line.number, what), may_be_right });
        }
    }
    slips
}

/// What is told of a line that has no keyword at its beginning; nothing where it is a line like any other.
fn told(words: &[Word], may_be_right: bool) -> Option<String> {
    let first = words[0].bare()?;
    if let Some(keyword) = meant(first) {
        return (!may_be_right || fits(keyword, &words[1..])).then(|| tell(first, keyword));
    }
    let keyword = words.iter().filter_map(|word| word.bare()).find(|word| Keyword::named(word).is_some());
    let inside = keyword.filter(|_| !may_be_right);
    elsewhere(first).or(inside.map(|keyword| format!("{keyword} is a keyword, which begins a line of its own")))
}

/// The slips among the faults of a text, since each hides what comes after it; the faults where there are none.
pub fn only_slips(slips: Vec<Slip>, faults: Faults) -> Faults {
    let faults = faults.by_line();
    let is_slip = |slip: &Slip| !slip.may_be_right || faults.iter().any(|fault| fault.line == slip.fault.line);
    let found: Vec<Fault> = slips.into_iter().filter(is_slip).map(|slip| slip.fault).collect();
    Faults::from(if found.is_empty() { faults } else { found })
}

/// The keyword that a word is, in small letters or misspelled.
fn meant(word: &str) -> Option<Keyword> {
    let long = word.chars().count() > 2 && word.chars().next().is_some_and(char::is_alphabetic);
    let near = nearest(word, Keyword::ALL.iter().map(|keyword| keyword.name())).filter(|_| long);
    near.and_then(Keyword::named).filter(|_| !ELSEWHERE.iter().any(|(other, _)| *other == word.to_uppercase()))
}

fn tell(word: &str, keyword: Keyword) -> String {
    let keyword = keyword.name();
    match word.to_uppercase() == keyword {
        true => format!("{word}: keywords are written in capitals: {keyword}"),
        false => format!("{word} is no keyword{}", is_meant(Some(keyword))),
    }
}

/// What stands for a keyword of another format. In small letters it is a word like any other.
fn elsewhere(word: &str) -> Option<String> {
    if word.len() > 1 && word.starts_with('\\') {
        return Some(format!("{word} is no keyword: an entry is one line, a form, a continuation and a gloss"));
    }
    let (_, instead) = ELSEWHERE.iter().find(|(other, _)| *other == word)?;
    Some(format!("{word} is no keyword: {instead}"))
}

/// Whether a line with these words after its keyword could open such a section.
fn fits(keyword: Keyword, words: &[Word]) -> bool {
    let is_letter = |word: &Word| word.bare().and_then(one_character).is_some();
    match keyword {
        Keyword::Boundary | Keyword::Null | Keyword::Any => words.len() == 1 && is_letter(&words[0]),
        Keyword::Alphabet => words.iter().all(is_letter),
        Keyword::Form => matches!(words, [Word::Bare(form)] if is_number(form)),
        Keyword::Subset => words.len() > 1 && words[1..].iter().all(is_letter),
        Keyword::Pairs => words.iter().all(|word| word.bare().is_some_and(|text| text.contains(':'))),
        Keyword::Rule => matches!(words, [Word::Quoted(_), ..]),
        Keyword::Alternation => words.len() > 1 && words.iter().all(|word| word.bare().is_some()),
        Keyword::Lexicon => matches!(words, [Word::Bare(_)]),
        Keyword::End => words.is_empty(),
    }
}
