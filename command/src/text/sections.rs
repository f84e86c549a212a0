//! Divides the lines of a text into the sections that keywords open, and sees to their order and number.

use crate::text::fault::Fault;
use crate::text::lines::{Line, Word};

/// The words that open a section.
#[derive(Clone, Copy, Debug, PartialEq, Eq)]
pub enum Keyword {
    Boundary,
    Null,
    Any,
    Alphabet,
    Form,
    Subset,
    Pairs,
    Rule,
    Alternation,
    Lexicon,
    End,
}

const ORDER: &str =
    "BOUNDARY, NULL, ANY, ALPHABET and perhaps FORM, then SUBSET and PAIRS, then RULE, then ALTERNATION and LEXICON, END";

impl Keyword {
    pub const ALL: [Keyword; 11] = [
        Keyword::Boundary,
        Keyword::Null,
        Keyword::Any,
        Keyword::Alphabet,
        Keyword::Form,
        Keyword::Subset,
        Keyword::Pairs,
        Keyword::Rule,
        Keyword::Alternation,
        Keyword::Lexicon,
        Keyword::End,
    ];

    pub fn named(word: &str) -> Option<Keyword> {
        Keyword::ALL.into_iter().find(|keyword| keyword.name() == word)
    }

    pub fn name(self) -> &'static str {
        match self {
            Keyword::Boundary => "BOUNDARY",
            Keyword::Null => "NULL",
            Keyword::Any => "ANY",
            Keyword::Alphabet => "ALPHABET",
            Keyword::Form => "FORM",
            Keyword::Subset => "SUBSET",
            Keyword::Pairs => "PAIRS",
            Keyword::Rule => "RULE",
            Keyword::Alternation => "ALTERNATION",
            Keyword::Lexicon => "LEXICON",
            Keyword::End => "END",
        }
    }

    /// Sections of equal rank may stand in any order.
    fn rank(self) -> u8 {
        match self {
            Keyword::Boundary | Keyword::Null | Keyword::Any | Keyword::Alphabet | Keyword::Form => 0,
            Keyword::Subset | Keyword::Pairs => 1,
            Keyword::Rule => 2,
            Keyword::Alternation | Keyword::Lexicon => 3,
            Keyword::End => 4,
        }
    }
}

/// A keyword's line, and the lines up to the next keyword.
#[derive(Debug)]
pub struct Section<'a> {
    pub keyword: Keyword,
    pub line: usize,
    /// The words after the keyword in its own line.
    pub head: Vec<Word<'a>>,
    pub body: Vec<Line<'a>>,
}

impl<'a> Section<'a> {
    /// All words of the section, each with its line, for sections in which lines mean nothing.
    pub fn words(&self) -> impl Iterator<Item = (usize, Word<'a>)> + '_ {
        let head = self.head.iter().map(|&word| (self.line, word));
        let body = self.body.iter();
        head.chain(body.flat_map(|line| line.words.iter().map(|&word| (line.number, word))))
    }

    /// The line of the word that `before` words stand before; the last line where there are no more.
    pub fn line_of(&self, before: usize) -> usize {
        self.words().nth(before).map_or(self.last_line(), |(line, _)| line)
    }

    pub fn last_line(&self) -> usize {
        self.body.last().map_or(self.line, |line| line.number)
    }
}

/// The sections of a grammar.
#[derive(Debug)]
pub struct Sections<'a> {
    pub boundary: Section<'a>,
    pub null: Section<'a>,
    pub any: Section<'a>,
    pub alphabet: Section<'a>,
    pub form: Option<Section<'a>>,
    pub subsets: Vec<Section<'a>>,
    pub pairs: Section<'a>,
    pub rules: Vec<Section<'a>>,
    pub alternations: Vec<Section<'a>>,
    pub lexicons: Vec<Section<'a>>,
}

pub fn divide(lines: Vec<Line<'_>>) -> Result<Sections<'_>, Fault> {
    let mut sections = group(lines)?;
    let end = close(&mut sections)?;
    check_order(&sections)?;
    let lexicons = every(&mut sections, Keyword::Lexicon);
    if lexicons.is_empty() {
        return Err(missing(Keyword::Lexicon, end));
    }
    Ok(Sections {
        boundary: only(&mut sections, Keyword::Boundary, end)?,
        null: only(&mut sections, Keyword::Null, end)?,
        any: only(&mut sections, Keyword::Any, end)?,
        alphabet: only(&mut sections, Keyword::Alphabet, end)?,
        form: at_most_one(&mut sections, Keyword::Form)?,
        subsets: every(&mut sections, Keyword::Subset),
        pairs: only(&mut sections, Keyword::Pairs, end)?,
        rules: every(&mut sections, Keyword::Rule),
        alternations: every(&mut sections, Keyword::Alternation),
        lexicons,
    })
}

fn group(lines: Vec<Line<'_>>) -> Result<Vec<Section<'_>>, Fault> {
    let mut sections: Vec<Section> = Vec::new();
    for line in lines {
        match (opened(&line), sections.last_mut()) {
            (Some(keyword), _) => {
                sections.push(Section { keyword, line: line.number, head: line.words[1..].to_vec(), body: Vec::new() })
            }
            (None, Some(section)) => section.body.push(line),
            (None, None) => {
                let word = line.words[0].text();
                let what = format!("{word}: no section is open; sections stand in this order: {ORDER}");
                return Err(Fault::new(line.number, what));
            }
        }
    }
    Ok(sections)
}

/// The keyword that a line opens a section with.
fn opened(line: &Line) -> Option<Keyword> {
    line.words.first()?.bare().and_then(Keyword::named)
}

/// Takes END away and hands back its line. A text without it may have been cut off.
fn close(sections: &mut Vec<Section>) -> Result<usize, Fault> {
    let last_line = sections.last().map_or(1, Section::last_line);
    let Some(at) = sections.iter().position(|section| section.keyword == Keyword::End) else {
        return Err(Fault::new(last_line, "no END after this; the text may have been cut off"));
    };
    let after = sections.split_off(at);
    let end = after[0].line;
    let first_word = after[0].words().map(|(line, _)| line).next();
    match first_word.or(after.get(1).map(|section| section.line)) {
        Some(line) => Err(Fault::new(line, "only comments may follow END")),
        None => Ok(end),
    }
}

fn check_order(sections: &[Section]) -> Result<(), Fault> {
    for pair in sections.windows(2) {
        let (before, after) = (&pair[0], &pair[1]);
        if after.keyword.rank() < before.keyword.rank() {
            let (late, early) = (after.keyword.name(), before.keyword.name());
            let what = format!("{late} after {early}; sections stand in this order: {ORDER}");
            return Err(Fault::new(after.line, what));
        }
    }
    Ok(())
}

/// The section of a keyword that stands once.
fn only<'a>(sections: &mut Vec<Section<'a>>, keyword: Keyword, end: usize) -> Result<Section<'a>, Fault> {
    at_most_one(sections, keyword)?.ok_or_else(|| missing(keyword, end))
}

fn at_most_one<'a>(sections: &mut Vec<Section<'a>>, keyword: Keyword) -> Result<Option<Section<'a>>, Fault> {
    let mut found = every(sections, keyword).into_iter();
    match (found.next(), found.next()) {
        (Some(first), Some(second)) => {
            let (name, first_line) = (keyword.name(), first.line);
            Err(Fault::new(second.line, format!("a second {name}; the first is in line {first_line}")))
        }
        (first, _) => Ok(first),
    }
}

/// The fault of a text that reaches END without a section that it needs.
fn missing(keyword: Keyword, end: usize) -> Fault {
    Fault::new(end, format!("no {} before this", keyword.name()))
}

fn every<'a>(sections: &mut Vec<Section<'a>>, keyword: Keyword) -> Vec<Section<'a>> {
    let all = std::mem::take(sections);
    let (found, others) = all.into_iter().partition(|section| section.keyword == keyword);
    *sections = others;
    found
}
