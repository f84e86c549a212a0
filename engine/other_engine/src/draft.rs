//! A draft is a grammar as plain data, written out as the bytes of an image whether or not it keeps the limits.

use crate::entries::{entries_in_block, entry_width};
use crate::grammar::{Entry, Grammar, Set, Table, END};
use crate::image::{seal, BLOCK};

/// A rule table as plain data.
#[derive(Clone, Debug)]
pub struct DraftTable {
    pub columns: Vec<(u8, u8)>,
    pub finals: Vec<u8>,
    pub rows: Vec<Vec<u8>>,
}

/// An entry as plain data: form 1 of an image writes its ending or its first lexicon, form 2 all its ways.
#[derive(Clone, Debug)]
pub struct DraftEntry {
    pub form: Vec<u8>,
    pub ends: bool,
    pub lexicons: Vec<u8>,
    pub gloss: u16,
}

/// A grammar as plain data.
#[derive(Clone, Debug)]
pub struct Draft {
    /// The form of its image: 1 or 2.
    pub image_form: usize,
    pub letters: Vec<u16>,
    pub pairs: Vec<(u8, u8)>,
    /// The sets, of letters up to 127.
    pub sets: Vec<Set>,
    pub tables: Vec<DraftTable>,
    pub lexicons: Vec<Vec<DraftEntry>>,
}

/// A block more, with as many of the bytes as it holds.
fn push_block(image: &mut Vec<u8>, kind: u8, records: usize, bytes: &[u8]) {
    let at = image.len();
    image.resize(at + BLOCK, 0);
    image[at + 2] = kind;
    image[at + 3] = records as u8;
    let bytes = &bytes[..bytes.len().min(506)];
    image[at + 4..at + 4 + bytes.len()].copy_from_slice(bytes);
}

fn twos(numbers: impl IntoIterator<Item = usize>) -> Vec<u8> {
    numbers
        .into_iter()
        .flat_map(|n| (n as u16).to_le_bytes())
        .collect()
}

fn sides(pairs: &[(u8, u8)]) -> Vec<u8> {
    pairs
        .iter()
        .flat_map(|&(lexical, surface)| [lexical, surface])
        .collect()
}

/// So many bytes, with bit b of byte j for number 8j + b; a number past them has none.
fn bits(numbers: &[u8], bytes: usize) -> Vec<u8> {
    let mut bits = vec![0; bytes];
    for number in numbers {
        if let Some(byte) = bits.get_mut(usize::from(number / 8)) {
            *byte |= 1 << (number % 8);
        }
    }
    bits
}

fn draft_table(table: &Table) -> DraftTable {
    DraftTable {
        columns: table.columns.clone(),
        finals: table.finals.clone(),
        rows: table.rows.clone(),
    }
}

fn draft_entry(entry: &Entry) -> DraftEntry {
    DraftEntry {
        form: entry.form.clone(),
        ends: entry.ends,
        lexicons: entry.lexicons.clone(),
        gloss: entry.gloss,
    }
}

impl DraftTable {
    /// The record of the table.
    pub fn record(&self) -> Vec<u8> {
        let mut record = vec![self.columns.len() as u8, self.finals.len() as u8];
        record.extend(sides(&self.columns));
        record.extend(&self.finals);
        record.extend(self.rows.iter().flatten());
        record
    }
}

impl DraftEntry {
    /// An entry with one way on: a lexicon, or 255 for the end.
    pub fn with_one_way(form: Vec<u8>, continuation: u8, gloss: u16) -> DraftEntry {
        let mut entry = DraftEntry {
            form,
            ends: false,
            lexicons: Vec::new(),
            gloss,
        };
        entry.go_on_to(continuation);
        entry
    }

    /// Leaves one way on: a lexicon, or 255 for the end.
    pub fn go_on_to(&mut self, continuation: u8) {
        self.ends = continuation == END;
        self.lexicons.clear();
        if !self.ends {
            self.lexicons.push(continuation);
        }
    }

    /// The way on that form 1 writes.
    fn continuation(&self) -> u8 {
        match self.lexicons.first() {
            Some(&lexicon) if !self.ends => lexicon,
            _ => END,
        }
    }

    /// The record of the entry by the image's form.
    pub fn record(&self, image_form: usize) -> Vec<u8> {
        let mut record = vec![self.form.len() as u8];
        record.extend(&self.form);
        record.resize(13, 0);
        record.push(match image_form {
            2 => u8::from(self.ends),
            _ => self.continuation(),
        });
        record.extend(self.gloss.to_le_bytes());
        if image_form == 2 {
            record.extend(bits(&self.lexicons, 8));
        }
        debug_assert_eq!(record.len(), entry_width(image_form));
        record
    }
}

impl Draft {
    /// What a grammar was read from.
    pub fn of(grammar: &Grammar) -> Draft {
        let entries: Vec<DraftEntry> = grammar.entries.iter().map(draft_entry).collect();
        let lexicons = 0..grammar.starts.len() - 1;
        Draft {
            image_form: grammar.image_form,
            letters: grammar.letters.clone(),
            pairs: grammar.pairs.clone(),
            sets: grammar.sets.clone(),
            tables: grammar.tables.iter().map(draft_table).collect(),
            lexicons: lexicons
                .map(|number| entries[grammar.lexicon(number)].to_vec())
                .collect(),
        }
    }

    /// The entries through the lexicons in order.
    pub fn entries(&self) -> impl Iterator<Item = &DraftEntry> {
        self.lexicons.iter().flatten()
    }

    /// The image of the draft, without numbers and checks.
    pub fn unsealed(&self) -> Vec<u8> {
        let mut image = Vec::new();
        let form = self.image_form;
        let entries: Vec<Vec<u8>> = self.entries().map(|entry| entry.record(form)).collect();
        let counts = [
            form,
            self.letters.len(),
            self.pairs.len(),
            self.tables.len(),
            self.lexicons.len(),
            entries.len(),
            self.sets.len(),
        ];
        push_block(&mut image, 1, 1, &twos(counts));
        let letters = twos(self.letters.iter().map(|&point| usize::from(point)));
        push_block(&mut image, 2, self.letters.len(), &letters);
        push_block(&mut image, 3, self.pairs.len(), &sides(&self.pairs));
        if !self.sets.is_empty() {
            let sets: Vec<u8> = self.sets.iter().flat_map(|set| bits(set, 16)).collect();
            push_block(&mut image, 7, self.sets.len(), &sets);
        }
        for table in &self.tables {
            push_block(&mut image, 4, 1, &table.record());
        }
        let lexicons = twos(self.lexicons.iter().map(Vec::len));
        push_block(&mut image, 5, self.lexicons.len(), &lexicons);
        for some in entries.chunks(entries_in_block(form)) {
            push_block(&mut image, 6, some.len(), &some.concat());
        }
        image
    }

    /// The image of the draft, sealed where its length allows.
    pub fn image(&self) -> Vec<u8> {
        let mut image = self.unsealed();
        // A draft past 128 blocks stays unsealed and is refused for its length.
        let _ = seal(&mut image);
        image
    }

    /// The luz grammar.
    pub fn luz() -> Draft {
        let entry = |form: &[u8], continuation, gloss| {
            DraftEntry::with_one_way(form.to_vec(), continuation, gloss)
        };
        Draft {
            image_form: 1,
            letters: "#+celsuzZ".bytes().map(u16::from).collect(),
            pairs: vec![
                (2, 0),
                (3, 3),
                (4, 4),
                (5, 5),
                (6, 6),
                (7, 7),
                (9, 3),
                (9, 8),
            ],
            sets: Vec::new(),
            tables: vec![DraftTable {
                columns: vec![(9, 3), (9, 8), (2, 0), (4, 4), (255, 255)],
                finals: vec![1, 1, 1, 1, 0],
                rows: vec![
                    vec![3, 2, 1, 1, 1],
                    vec![3, 2, 4, 1, 1],
                    vec![0, 0, 5, 0, 0],
                    vec![3, 2, 1, 0, 1],
                    vec![0, 0, 0, 1, 0],
                ],
            }],
            lexicons: vec![
                vec![entry(&[5, 7, 9], 1, 0), entry(&[5, 7, 3], 1, 1)],
                vec![entry(&[], 255, 2), entry(&[2, 4, 6], 255, 3)],
            ],
        }
    }
}
