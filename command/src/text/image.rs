//! Lays a grammar out in blocks, and seals them.

use crate::text::alphabet::ANY;
use crate::text::columns::Column;
use crate::text::form::Form;
use crate::text::grammar::Grammar;
use crate::text::lexicons::Entry;
use crate::text::limits;
use crate::text::pairs::Pair;
use crate::text::rules::Rule;
use crate::text::sets::{Set, FIRST_SET};

pub const BLOCK: usize = 512;
/// Where a block's first record begins.
pub const RECORDS: usize = 4;
/// Where a block's check stands.
const CHECK: usize = 510;
pub const SET: usize = 16;
/// The continuation of an entry that ends the word, in form 1.
pub const END: u8 = 255;

// The limits keep every image within its blocks, so that no grammar is too large to lay out; in form 2 its room does.
const _: () = {
    assert!(Form::One.room(*limits::RULES.end(), true) == *limits::ENTRIES.end());
    assert!(Form::Two.room(0, false) == 2_604);
    let table = 2 + 2 * *limits::COLUMNS.end() + *limits::STATES.end() * (1 + *limits::COLUMNS.end());
    assert!(table <= CHECK - RECORDS);
    assert!(2 * *limits::PAIRS.end() <= CHECK - RECORDS);
    assert!(Form::One.entries_a_block() * Form::One.entry() <= CHECK - RECORDS);
    assert!(Form::Two.entries_a_block() * Form::Two.entry() <= CHECK - RECORDS);
    assert!(*limits::SETS.end() * SET <= CHECK - RECORDS && *limits::LETTERS.end() < 8 * SET);
    // A side of a column is a letter, names a set or is any, and no two of these.
    assert!(*limits::LETTERS.end() < FIRST_SET as usize && FIRST_SET as usize + *limits::SETS.end() <= ANY as usize);
    assert!(*limits::LEXICONS.end() <= u64::BITS as usize && *limits::LEXICONS.end() < END as usize);
};

/// The image of a grammar, sealed.
pub fn sealed_image(grammar: &Grammar) -> Vec<u8> {
    let letters: Vec<_> = grammar.alphabet.letters().map(|c| two_bytes(u32::from(c) as usize)).collect();
    let pairs: Vec<_> = grammar.pairs.iter().map(|&Pair { lexical, surface }| [lexical, surface]).collect();
    let sets: Vec<_> = grammar.sets.all().iter().map(set).collect();
    let counts: Vec<_> = grammar.lexicons.iter().map(|lexicon| two_bytes(lexicon.entries.len())).collect();
    let entry = match grammar.form {
        Form::One => entry_of_one,
        Form::Two => entry_of_two,
    };
    let entries: Vec<Vec<u8>> = grammar.lexicons.iter().flat_map(|lexicon| &lexicon.entries).map(entry).collect();

    let mut blocks = vec![block(1, &[header(grammar, entries.len())]), block(2, &letters), block(3, &pairs)];
    if !sets.is_empty() {
        blocks.push(block(7, &sets));
    }
    blocks.extend(grammar.rules.iter().map(|rule| block(4, &[table(rule)])));
    blocks.push(block(5, &counts));
    blocks.extend(entries.chunks(grammar.form.entries_a_block()).map(|records| block(6, records)));
    for (number, block) in blocks.iter_mut().enumerate() {
        seal(block, number);
    }
    blocks.concat()
}

fn header(grammar: &Grammar, entries: usize) -> Vec<u8> {
    let (letters, pairs, rules) = (grammar.alphabet.count(), grammar.pairs.len(), grammar.rules.len());
    let counts =
        [grammar.form.number(), letters, pairs, rules, grammar.lexicons.len(), entries, grammar.sets.all().len()];
    counts.map(two_bytes).concat()
}

/// Bit b of byte j is letter 8j + b.
fn set(set: &Set) -> [u8; SET] {
    let bits = set.letters.iter().fold(0, |bits: u128, letter| bits | 1 << letter);
    bits.to_le_bytes()
}

fn table(rule: &Rule) -> Vec<u8> {
    let mut bytes = vec![rule.columns.len() as u8, rule.states.len() as u8];
    bytes.extend(rule.columns.iter().flat_map(|&Column { lexical, surface }| [lexical, surface]));
    bytes.extend(rule.states.iter().map(|state| u8::from(state.is_final)));
    bytes.extend(rule.states.iter().flat_map(|state| &state.next));
    bytes
}

/// Length and letters, one way on, gloss.
fn entry_of_one(entry: &Entry) -> Vec<u8> {
    let lexicon = entry.ways.lexicons().next().map(|lexicon| lexicon as u8);
    [&form_bytes(entry)[..], &[lexicon.unwrap_or(END)], &entry.gloss.to_le_bytes()].concat()
}

/// Length and letters, whether the word may end, gloss, and a bit for each lexicon: bit b of byte j is lexicon 8j + b.
fn entry_of_two(entry: &Entry) -> Vec<u8> {
    let end = [u8::from(entry.ways.end)];
    [&form_bytes(entry)[..], &end, &entry.gloss.to_le_bytes(), &entry.ways.bits.to_le_bytes()].concat()
}

fn form_bytes(entry: &Entry) -> [u8; 13] {
    let mut bytes = [0; 13];
    bytes[0] = entry.form.len() as u8;
    bytes[1..][..entry.form.len()].copy_from_slice(&entry.form);
    bytes
}

/// A number below 65,536, low byte first.
fn two_bytes(number: usize) -> [u8; 2] {
    (number as u16).to_le_bytes()
}

fn block(kind: u8, records: &[impl AsRef<[u8]>]) -> [u8; BLOCK] {
    let mut block = [0; BLOCK];
    block[2] = kind;
    block[3] = records.len() as u8;
    let mut at = RECORDS;
    for record in records {
        let record = record.as_ref();
        block[at..][..record.len()].copy_from_slice(record);
        at += record.len();
    }
    block
}

/// Writes the block's number, and then its check, which covers the number.
fn seal(block: &mut [u8; BLOCK], number: usize) {
    block[..2].copy_from_slice(&two_bytes(number));
    let sum: usize = (1..).zip(&block[..CHECK]).map(|(weight, &byte)| weight * usize::from(byte)).sum();
    block[CHECK..].copy_from_slice(&two_bytes((1 + sum) % 65_521));
}
