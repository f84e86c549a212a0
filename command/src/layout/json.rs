//! A line of JSON a word, with the same fields in every line.

use super::{word_text, Divided, Layout};
use crate::library::{self, Reply, ROW};
use crate::readings::{EntryName, Names};
use crate::words::{Answer, Outcome};

pub struct Json {
    headwords: Vec<Vec<u8>>,
    /// An object an entry.
    entries: Divided,
    pairs: Divided,
    pair_numbers: Option<Divided>,
}

impl Json {
    pub fn new(names: &Names, with_numbers: bool) -> Json {
        let entries = names.entries.iter().enumerate();
        Json {
            headwords: names.entries.iter().map(|entry| string(&entry.headword)).collect(),
            entries: Divided::new(",", entries.map(|(number, entry)| object(entry, with_numbers.then_some(number)))),
            pairs: Divided::new(",", names.pairs.iter().map(|pair| string(pair))),
            pair_numbers: with_numbers.then(|| Divided::numbers(",", names.pairs.len())),
        }
    }

    fn put_reading(&self, row: &[u8], out: &mut Vec<u8>) {
        out.extend_from_slice(b"{\"headword\":");
        if let Some(first) = library::path(row).next() {
            out.extend_from_slice(&self.headwords[first]);
        }
        out.extend_from_slice(b",\"entries\":[");
        self.entries.put(library::path(row), out);
        out.extend_from_slice(b"],\"pairing\":[");
        self.pairs.put(library::pairing(row), out);
        if let Some(numbers) = &self.pair_numbers {
            out.extend_from_slice(b"],\"pairs\":[");
            numbers.put(library::pairing(row), out);
        }
        out.extend_from_slice(b"]}");
    }
}

impl Layout for Json {
    fn answer(&self, answer: &Answer, out: &mut Vec<u8>) {
        out.extend_from_slice(b"{\"word\":");
        put_string(&word_text(answer), out);
        out.extend_from_slice(b",\"outcome\":\"");
        out.extend_from_slice(match answer.outcome {
            Outcome::Answered(Reply::All(_)) => b"all",
            Outcome::Answered(Reply::More(_)) => b"more",
            Outcome::Answered(Reply::None) => b"none",
            Outcome::Answered(Reply::Refused(_)) => b"refused",
            Outcome::Unread(_) => b"unread",
        });
        out.extend_from_slice(b"\",\"refusal\":");
        match answer.outcome {
            Outcome::Answered(Reply::Refused(number)) => out.extend_from_slice(number.to_string().as_bytes()),
            _ => out.extend_from_slice(b"null"),
        }
        out.extend_from_slice(b",\"reason\":");
        match answer.outcome {
            Outcome::Unread(reason) => put_string(reason.to_string().as_bytes(), out),
            _ => out.extend_from_slice(b"null"),
        }
        out.extend_from_slice(b",\"folded\":");
        put_truth(answer.done.folded, out);
        out.extend_from_slice(b",\"composed\":");
        put_truth(answer.done.composed, out);
        out.extend_from_slice(b",\"readings\":[");
        for (at, row) in answer.rows.chunks_exact(ROW).enumerate() {
            if at > 0 {
                out.push(b',');
            }
            self.put_reading(row, out);
        }
        out.extend_from_slice(b"]}\n");
    }
}

/// An entry: its form, its gloss and, where wanted, its number.
pub fn object(entry: &EntryName, number: Option<usize>) -> Vec<u8> {
    let mut out = b"{".to_vec();
    if let Some(number) = number {
        out.extend_from_slice(format!("\"entry\":{number},").as_bytes());
    }
    out.extend_from_slice(b"\"form\":");
    put_string(entry.form.as_bytes(), &mut out);
    out.extend_from_slice(b",\"gloss\":");
    match &entry.gloss {
        Some(gloss) => put_string(gloss.as_bytes(), &mut out),
        None => out.extend_from_slice(b"null"),
    }
    out.push(b'}');
    out
}

fn put_truth(is_true: bool, out: &mut Vec<u8>) {
    out.extend_from_slice(if is_true { b"true" } else { b"false" });
}

pub fn string(text: &str) -> Vec<u8> {
    let mut out = Vec::new();
    put_string(text.as_bytes(), &mut out);
    out
}

/// A text in UTF-8 as a string of JSON.
fn put_string(text: &[u8], out: &mut Vec<u8>) {
    out.push(b'"');
    for &byte in text {
        match byte {
            b'"' | b'\\' => out.extend_from_slice(&[b'\\', byte]),
            0..0x20 => out.extend_from_slice(format!("\\u{byte:04x}").as_bytes()),
            _ => out.push(byte),
        }
    }
    out.push(b'"');
}

#[cfg(test)]
mod tests {
    use super::string;

    #[test]
    fn strings_are_escaped() {
        let escaped = string("a\"b\\c\td\u{1b}é\u{10330}/");
        assert_eq!(String::from_utf8(escaped).unwrap(), "\"a\\\"b\\\\c\\u0009d\\u001bé\u{10330}/\"");
    }
}
