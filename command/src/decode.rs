//! An accepted image back to a grammar. Names are not in an image, so they are made of kinds and numbers.

use crate::text::alphabet::Alphabet;
use crate::text::columns::{taken, Column, Sides};
use crate::text::form::Form;
use crate::text::image::{BLOCK, END, RECORDS, SET};
use crate::text::lexicons::{Entry, Lexicon};
use crate::text::pairs::Pair;
use crate::text::rules::{Rule, State};
use crate::text::sets::{Set, Sets};
use crate::text::ways::Ways;
use crate::text::Grammar;

/// The grammar of an image that the library accepts.
pub fn decode(image: &[u8]) -> Grammar {
    let count = |at: usize| two_bytes(image, RECORDS + 2 * at);
    // Test 3 lets no other form pass.
    let form = Form::numbered(count(0)).unwrap_or(Form::One);
    let [letters, pairs, rules, lexicons, entries, sets] = [1, 2, 3, 4, 5, 6].map(count);
    let alphabet = decode_alphabet(records(image, 1, letters, 2));
    let pairs: Vec<Pair> =
        records(image, 2, pairs, 2).map(|pair| Pair { lexical: pair[0], surface: pair[1] }).collect();
    let sets = Sets::of(records(image, 3, sets, SET).enumerate().map(decode_set).collect());
    let first_rule = 3 + usize::from(!sets.all().is_empty());
    let sides = Sides { alphabet: &alphabet, sets: &sets };
    let tables = (first_rule..first_rule + rules).map(|block| &image[BLOCK * block + RECORDS..]);
    let rules = tables.enumerate().map(|(number, table)| decode_rule(number, table, &pairs, sides)).collect();
    let counts_block = first_rule + count(3);
    let mut entries = (0..entries).map(|entry| decode_entry(form, image, counts_block + 1, entry));
    let lexicons = records(image, counts_block, lexicons, 2).enumerate().map(|(number, count)| Lexicon {
        name: format!("Lexicon{number}"),
        entries: entries.by_ref().take(two_bytes(count, 0)).collect(),
        line: 0,
    });
    let lexicons = lexicons.collect();
    Grammar { form, alphabet, sets, pairs, rules, alternations: Vec::new(), lexicons, named: false }
}

fn two_bytes(bytes: &[u8], at: usize) -> usize {
    usize::from(u16::from_le_bytes([bytes[at], bytes[at + 1]]))
}

/// The first records of a block. None is looked for where there are none, since the block may be another's.
fn records(image: &[u8], block: usize, count: usize, width: usize) -> impl Iterator<Item = &[u8]> {
    image[BLOCK * block + RECORDS..].chunks(width).take(count)
}

/// The null and any are no part of an image: each is shown as it is in the samples, if that is no letter.
fn decode_alphabet<'a>(records: impl Iterator<Item = &'a [u8]>) -> Alphabet {
    let point = |record| u32::try_from(two_bytes(record, 0)).ok().and_then(char::from_u32);
    // Test 4 lets no surrogate pass, and all others are characters.
    let letters: Vec<char> = records.map(|record| point(record).unwrap_or(char::REPLACEMENT_CHARACTER)).collect();
    let any = free('@', &letters);
    let null = free('0', &[&letters[..], &[any]].concat());
    Alphabet::of(&letters, null, any)
}

/// A character that is none of `taken`: the one that is wanted, or another that can be seen.
fn free(wanted: char, taken: &[char]) -> char {
    let mut others = [wanted].into_iter().chain("-_*%&$!?~".chars()).chain('\u{2200}'..'\u{2300}');
    others.find(|other| !taken.contains(other)).unwrap_or(wanted)
}

fn decode_set((number, record): (usize, &[u8])) -> Set {
    let has = |letter: &u8| record[usize::from(letter / 8)] >> (letter % 8) & 1 == 1;
    Set { name: format!("Set{number}"), letters: (0..=127).filter(has).collect(), line: 0 }
}

fn decode_rule(number: usize, table: &[u8], pairs: &[Pair], sides: Sides) -> Rule {
    let (width, height) = (usize::from(table[0]), usize::from(table[1]));
    let (columns, rest) = table[2..].split_at(2 * width);
    let columns: Vec<Column> =
        columns.chunks(2).map(|column| Column { lexical: column[0], surface: column[1] }).collect();
    let (marks, rows) = rest.split_at(height);
    let states = marks.iter().zip(rows.chunks(width));
    Rule {
        name: format!("Rule{number}"),
        taken: taken(&columns, pairs, sides).unwrap_or_default(),
        columns,
        states: states.map(|(&mark, next)| State { is_final: mark == 1, next: next.to_vec(), line: 0 }).collect(),
        line: 0,
        sides_line: 0,
    }
}

fn decode_entry(form: Form, image: &[u8], first_block: usize, number: usize) -> Entry {
    let (width, a_block) = (form.entry(), form.entries_a_block());
    let at = BLOCK * (first_block + number / a_block) + RECORDS + width * (number % a_block);
    let record = &image[at..][..width];
    Entry {
        form: record[1..=usize::from(record[0])].to_vec(),
        ways: decode_ways(form, record),
        gloss: u16::from_le_bytes([record[14], record[15]]),
        gloss_text: String::new(),
        line: 0,
    }
}

/// Form 1 has one way on in byte 13; form 2 has a mark there for the end, and the lexicons in the last eight bytes.
fn decode_ways(form: Form, record: &[u8]) -> Ways {
    match (form, record[13]) {
        (Form::One, END) => Ways::END,
        (Form::One, lexicon) => Ways::to(lexicon),
        (Form::Two, mark) => {
            let bits = record[16..].iter().rev().fold(0, |bits, &byte| bits << 8 | u64::from(byte));
            Ways { bits, end: mark == 1 }
        }
    }
}
