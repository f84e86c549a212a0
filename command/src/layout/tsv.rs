//! A line a reading, and a line for a word without one, in the same columns: word, outcome, headword, forms, glosses, pairing.

use super::{field, outcome, put_field, word_text, Divided, Layout};
use crate::library::{self, Reply, ROW};
use crate::readings::Names;
use crate::words::{Answer, Outcome};

const HEADER: &str = "word\toutcome\theadword\tforms\tglosses\tpairing";
const NUMBERS_HEADER: &str = "\tentry numbers\tpair numbers";
/// The columns after the outcome.
const COLUMNS: usize = 4;

pub struct Tsv {
    headwords: Vec<Vec<u8>>,
    forms: Divided,
    glosses: Divided,
    pairs: Divided,
    numbers: Option<(Divided, Divided)>,
}

impl Tsv {
    pub fn new(names: &Names, with_numbers: bool) -> Tsv {
        let entries = &names.entries;
        // A gloss may have blanks in it, so that another character divides glosses.
        let gloss = |gloss: &Option<String>| without_bars(gloss.as_deref().unwrap_or(""));
        Tsv {
            headwords: entries.iter().map(|entry| field(&entry.headword)).collect(),
            forms: Divided::new(" ", entries.iter().map(|entry| field(&entry.form))),
            glosses: Divided::new("|", entries.iter().map(|entry| gloss(&entry.gloss))),
            pairs: Divided::new(" ", names.pairs.iter().map(|pair| field(pair))),
            numbers: with_numbers
                .then(|| (Divided::numbers(" ", entries.len()), Divided::numbers(" ", names.pairs.len()))),
        }
    }

    pub fn header(&self) -> String {
        format!("{HEADER}{}\n", self.numbers.as_ref().map_or("", |_| NUMBERS_HEADER))
    }

    fn put_reading(&self, row: &[u8], out: &mut Vec<u8>) {
        out.push(b'\t');
        if let Some(first) = library::path(row).next() {
            out.extend_from_slice(&self.headwords[first]);
        }
        let mut put = |divided: &Divided, is_path: bool| {
            out.push(b'\t');
            match is_path {
                true => divided.put(library::path(row), out),
                false => divided.put(library::pairing(row), out),
            }
        };
        put(&self.forms, true);
        put(&self.glosses, true);
        put(&self.pairs, false);
        if let Some((entries, pairs)) = &self.numbers {
            put(entries, true);
            put(pairs, false);
        }
    }
}

impl Layout for Tsv {
    fn answer(&self, answer: &Answer, out: &mut Vec<u8>) {
        let outcome = match answer.outcome {
            Outcome::Answered(Reply::All(_)) => "all".to_string(),
            Outcome::Answered(Reply::More(_)) => "more".to_string(),
            other => outcome(other),
        };
        let word = word_text(answer);
        let mut rows = answer.rows.chunks_exact(ROW);
        let mut row = rows.next();
        loop {
            put_field(&word, out);
            out.push(b'\t');
            out.extend_from_slice(outcome.as_bytes());
            match row {
                Some(row) => self.put_reading(row, out),
                None => out.extend(std::iter::repeat_n(b'\t', COLUMNS + self.numbers.as_ref().map_or(0, |_| 2))),
            }
            out.push(b'\n');
            row = rows.next();
            if row.is_none() {
                return;
            }
        }
    }
}

/// A field in which no bar stands but those that divide glosses.
fn without_bars(text: &str) -> Vec<u8> {
    let field = field(text).into_iter();
    field.flat_map(|byte| if byte == b'|' { vec![b'\\', b'|'] } else { vec![byte] }).collect()
}
