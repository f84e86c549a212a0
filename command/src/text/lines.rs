//! Cuts a text into lines, and each line into words, without its comment.

use crate::text::fault::{Fault, Faults};

/// A word of a line: bare, or between quotation marks.
#[derive(Clone, Copy, Debug, PartialEq, Eq)]
pub enum Word<'a> {
    Bare(&'a str),
    Quoted(&'a str),
}

impl<'a> Word<'a> {
    pub fn bare(self) -> Option<&'a str> {
        match self {
            Word::Bare(text) => Some(text),
            Word::Quoted(_) => None,
        }
    }

    /// What stands in the text, without quotation marks.
    pub fn text(self) -> &'a str {
        match self {
            Word::Bare(text) | Word::Quoted(text) => text,
        }
    }
}

/// A line that has words, with its number from 1.
#[derive(Debug)]
pub struct Line<'a> {
    pub number: usize,
    pub words: Vec<Word<'a>>,
}

pub const BLANKS: [char; 2] = [' ', '\t'];
const COMMENT: char = ';';
const QUOTE: char = '"';
/// Some editors put this mark before a text in UTF-8; it is no part of it.
const BYTE_ORDER_MARK: char = '\u{feff}';

pub fn decode(bytes: &[u8]) -> Result<&str, Fault> {
    let text = std::str::from_utf8(bytes).map_err(|error| {
        let before = &bytes[..error.valid_up_to()];
        let line = 1 + before.iter().filter(|&&byte| byte == b'\n').count();
        Fault::new(
            line,
            format!("a byte that is not UTF-8, {}; save the file as UTF-8", other_encoding(bytes, before.len())),
        )
    })?;
    Ok(text.strip_prefix(BYTE_ORDER_MARK).unwrap_or(text))
}

/// What a byte that is not UTF-8 may be.
fn other_encoding(bytes: &[u8], at: usize) -> String {
    let byte = bytes[at];
    match bytes {
        [0xFF, 0xFE, ..] | [0xFE, 0xFF, ..] => format!("{byte:02X}: this is UTF-16"),
        _ if byte > 0xA0 => format!("{byte:02X}, which in Latin-1 is {}", char::from(byte)),
        _ => format!("{byte:02X}"),
    }
}

/// The lines that have words.
pub fn split(text: &str) -> Result<Vec<Line<'_>>, Faults> {
    let mut lines = Vec::new();
    let mut faults = Faults::default();
    for (at, line) in text.split('\n').enumerate() {
        let number = at + 1;
        let words = split_line(line.strip_suffix('\r').unwrap_or(line)).map_err(|what| Fault::new(number, what));
        if let Some(words) = faults.keep(words) {
            if !words.is_empty() {
                lines.push(Line { number, words });
            }
        }
    }
    faults.or(lines)
}

fn split_line(line: &str) -> Result<Vec<Word<'_>>, String> {
    let mut words = Vec::new();
    let mut rest = line.trim_start_matches(BLANKS);
    while !rest.is_empty() && !rest.starts_with(COMMENT) {
        let (word, after) = match rest.strip_prefix(QUOTE) {
            Some(inside) => cut_quoted(inside)?,
            None => cut_bare(rest)?,
        };
        words.push(word);
        rest = after.trim_start_matches(BLANKS);
    }
    Ok(words)
}

fn cut_bare(rest: &str) -> Result<(Word<'_>, &str), String> {
    let end = rest.find([' ', '\t', COMMENT, QUOTE]).unwrap_or(rest.len());
    let (word, after) = rest.split_at(end);
    refuse_unseen(word, |c| c.is_control() || c.is_whitespace())?;
    if after.starts_with(QUOTE) {
        return Err(format!("{word}{QUOTE}: put a blank before the quotation mark"));
    }
    Ok((Word::Bare(word), after))
}

fn cut_quoted(inside: &str) -> Result<(Word<'_>, &str), String> {
    let Some((text, after)) = inside.split_once(QUOTE) else {
        return Err("a quotation mark without its partner in the same line".to_string());
    };
    refuse_unseen(text, char::is_control)?;
    if !(after.is_empty() || after.starts_with(BLANKS) || after.starts_with(COMMENT)) {
        return Err(format!("{QUOTE}{text}{QUOTE}: put a blank after the quotation mark"));
    }
    Ok((Word::Quoted(text), after))
}

/// A character that nobody sees, such as a no-break space, would make a fault that nobody finds.
fn refuse_unseen(text: &str, unseen: impl Fn(char) -> bool) -> Result<(), String> {
    match text.chars().find(|&c| unseen(c)) {
        Some(c) => Err(format!("{}, a character that cannot be seen", name(c))),
        None => Ok(()),
    }
}

/// Whether a text has these characters as one bare word.
pub fn is_word(text: &str) -> bool {
    matches!(split_line(text).as_deref(), Ok([Word::Bare(word)]) if *word == text)
}

/// The character of a word that is just one.
pub fn one_character(word: &str) -> Option<char> {
    let mut characters = word.chars();
    characters.next().filter(|_| characters.next().is_none())
}

/// Whether a word is this character alone.
pub fn is_alone(word: &str, character: char) -> bool {
    one_character(word) == Some(character)
}

/// Whether a word is all digits, however many.
pub fn is_number(word: &str) -> bool {
    word.bytes().all(|byte| byte.is_ascii_digit())
}

/// A whole number in digits; none where it is written otherwise or is far too large.
pub fn number(word: &str) -> Option<usize> {
    (!word.is_empty() && is_number(word)).then(|| word.parse::<u32>().ok())?.map(|n| n as usize)
}

/// A character as messages name it; one that cannot be seen, by its code point alone.
pub fn name(c: char) -> String {
    let code_point = format!("U+{:04X}", u32::from(c));
    if c.is_control() || c.is_whitespace() {
        return code_point;
    }
    format!("{c} ({code_point})")
}
