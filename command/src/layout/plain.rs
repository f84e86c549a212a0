//! A line a reading: word, headword, entries with glosses, pairing, divided by tabs; an empty line after each word. As
//! flookup does, a word without a reading gets `+?`.

use super::{field, outcome, put_field, put_word, Divided, Layout};
use crate::library::{self, Reply, ROW};
use crate::readings::Names;
use crate::words::{Answer, Outcome};

pub struct Plain {
    headwords: Vec<Vec<u8>>,
    entries: Divided,
    /// Whether an entry is shown.
    is_shown: Vec<bool>,
    pairs: Divided,
    /// Those of entries and pairs, where they are wanted.
    numbers: Option<(Divided, Divided)>,
}

impl Plain {
    pub fn new(names: &Names, with_numbers: bool) -> Plain {
        let count = |of: usize| Divided::numbers(" ", of);
        Plain {
            headwords: names.entries.iter().map(|entry| field(&entry.headword)).collect(),
            entries: Divided::new(" ", names.entries.iter().map(|entry| field(&entry.shown()))),
            is_shown: vec![true; names.entries.len()],
            pairs: Divided::new(" ", names.pairs.iter().map(|pair| field(pair))),
            numbers: with_numbers.then(|| (count(names.entries.len()), count(names.pairs.len()))),
        }
    }

    /// The same, with entries of an empty form passed over.
    pub fn without_empty(names: &Names) -> Plain {
        Plain { is_shown: names.entries.iter().map(|entry| !entry.is_empty).collect(), ..Plain::new(names, false) }
    }

    /// The reading of a word, a line.
    pub fn put_reading(&self, word: &[u8], row: &[u8], out: &mut Vec<u8>) {
        put_field(word, out);
        out.push(b'\t');
        if let Some(first) = library::path(row).next() {
            out.extend_from_slice(&self.headwords[first]);
        }
        out.push(b'\t');
        self.entries.put(library::path(row).filter(|&entry| self.is_shown[entry]), out);
        out.push(b'\t');
        self.pairs.put(library::pairing(row), out);
        if let Some((entries, pairs)) = &self.numbers {
            out.push(b'\t');
            entries.put(library::path(row), out);
            out.push(b'\t');
            pairs.put(library::pairing(row), out);
        }
        out.push(b'\n');
    }
}

impl Layout for Plain {
    fn answer(&self, answer: &Answer, out: &mut Vec<u8>) {
        for row in answer.rows.chunks_exact(ROW) {
            self.put_reading(answer.word, row, out);
        }
        let mark: &[u8] = match answer.outcome {
            Outcome::Answered(Reply::All(_)) => b"",
            Outcome::Answered(Reply::More(_)) => b"\t+...",
            _ => b"\t+?",
        };
        if !mark.is_empty() {
            put_word(answer, out);
            out.extend_from_slice(mark);
            if answer.outcome != Outcome::Answered(Reply::None) {
                out.push(b'\t');
                out.extend_from_slice(outcome(answer.outcome).as_bytes());
            }
            out.push(b'\n');
        }
        out.push(b'\n');
    }
}
