//! Answers as they are printed: plain lines, columns divided by tabs, or lines of JSON.

mod json;
mod plain;
mod tsv;

pub use json::{object, string, Json};
pub use plain::Plain;
pub use tsv::Tsv;

use crate::library::Reply;
use crate::words::{Answer, Outcome, Reason};
use std::borrow::Cow;

pub trait Layout: Sync {
    /// Puts a word with its answer at the end of `out`.
    fn answer(&self, answer: &Answer, out: &mut Vec<u8>);
}

/// `all 2`, `more 64`, `none`, `refused 9`, `unread`
pub fn outcome(outcome: Outcome) -> String {
    match outcome {
        Outcome::Answered(Reply::All(count)) => format!("all {count}"),
        Outcome::Answered(Reply::More(count)) => format!("more {count}"),
        Outcome::Answered(Reply::None) => "none".to_string(),
        Outcome::Answered(Reply::Refused(number)) => format!("refused {number}"),
        Outcome::Unread(_) => "unread".to_string(),
    }
}

/// A word as UTF-8 text. Only one that is unread may be otherwise; its wrong bytes become U+FFFD.
fn word_text<'a>(answer: &Answer<'a>) -> Cow<'a, [u8]> {
    match answer.outcome {
        Outcome::Unread(Reason::NotUtf8) => Cow::Owned(String::from_utf8_lossy(answer.word).into_owned().into_bytes()),
        _ => Cow::Borrowed(answer.word),
    }
}

/// Puts a text into a field of a line: a tab, a line end and the backslash itself are written with a backslash.
pub fn put_field(text: &[u8], out: &mut Vec<u8>) {
    if !text.iter().any(|&byte| byte < b' ' || byte == b'\\') {
        out.extend_from_slice(text);
        return;
    }
    for &byte in text {
        match byte {
            b'\t' => out.extend_from_slice(b"\\t"),
            b'\n' => out.extend_from_slice(b"\\n"),
            b'\r' => out.extend_from_slice(b"\\r"),
            b'\\' => out.extend_from_slice(b"\\\\"),
            other => out.push(other),
        }
    }
}

/// Puts a word into a field.
pub fn put_word(answer: &Answer, out: &mut Vec<u8>) {
    put_field(&word_text(answer), out);
}

fn field(text: &str) -> Vec<u8> {
    let mut out = Vec::new();
    put_field(text.as_bytes(), &mut out);
    out
}

/// Texts by number, each with what divides it from the one before.
struct Divided(Vec<Vec<u8>>);

impl Divided {
    fn new(divider: &str, texts: impl Iterator<Item = Vec<u8>>) -> Divided {
        Divided(texts.map(|text| [divider.as_bytes(), &text].concat()).collect())
    }

    fn numbers(divider: &str, count: usize) -> Divided {
        Divided::new(divider, (0..count).map(|number| number.to_string().into_bytes()))
    }

    /// Puts the texts with these numbers, divided from each other; a divider is one byte.
    fn put(&self, numbers: impl Iterator<Item = usize>, out: &mut Vec<u8>) {
        let mut skipped = 1;
        for number in numbers {
            out.extend_from_slice(&self.0[number][skipped..]);
            skipped = 0;
        }
    }
}

#[cfg(test)]
mod tests {
    use super::*;

    #[test]
    fn a_field_has_no_tab_and_no_line_end() {
        for (text, right) in [("luz", "luz"), ("", ""), ("a\tb\nc\rd\\e", "a\\tb\\nc\\rd\\\\e"), ("é ñ", "é ñ")] {
            assert_eq!(field(text), right.as_bytes());
        }
    }

    #[test]
    fn texts_are_divided() {
        let divided = Divided::numbers("|", 12);
        let put = |numbers: &[usize]| {
            let mut out = b"=".to_vec();
            divided.put(numbers.iter().copied(), &mut out);
            String::from_utf8(out).unwrap()
        };
        assert_eq!([put(&[]), put(&[11]), put(&[0, 11, 3])], ["=", "=11", "=0|11|3"]);
    }
}
