//! Records of words are drawn from a few words, with length bytes that are at times wrong, and beside them places and rows of any lengths.

use crate::prng::Prng;
use other_engine::calls::{PLACE, RECORD};
use other_engine::listing::ROW;

/// How many words, often none, one, or about as many as make a larger index worth while.
fn count(prng: &mut Prng) -> usize {
    match prng.weighted(&[3, 10, 50, 30, 7]) {
        0 => 0,
        1 => 1,
        2 => prng.between(2, 9),
        3 => prng.between(10, 18),
        _ => prng.between(19, 40),
    }
}

/// A word's record. A word that is too long has its length in the first byte all the same, and the bytes past a short one are any.
pub fn record(prng: &mut Prng, word: &[u8]) -> Vec<u8> {
    let mut record = prng.bytes(RECORD);
    let letters = word.len().min(RECORD - 1);
    record[0] = word.len().min(255) as u8;
    record[1..=letters].copy_from_slice(&word[..letters]);
    if prng.percent(6) {
        let any = prng.below(256) as u8;
        record[0] = prng.one_of(&[0, 32, 33, 34, 64, 127, 128, 255, any]);
    }
    record
}

/// What is lent for many words: their records, and the bytes of the places and of the rows.
pub struct Asked {
    pub words: Vec<u8>,
    pub places: usize,
    pub rows: usize,
}

/// Records of these words, some often and in any order; as many places or a few more or less; and rows about as many as the words can use. Each
/// length is at times no whole number of them.
pub fn asked(prng: &mut Prng, words: &[Vec<u8>]) -> Asked {
    let records = count(prng);
    let drawn: Vec<Vec<u8>> = words.iter().map(|word| record(prng, word)).collect();
    let mut bytes = Vec::new();
    for _ in 0..records {
        let place = prng.below(drawn.len());
        bytes.extend(&drawn[place]);
    }
    let places = match prng.below(4) {
        0 => prng.below(records + 2),
        1 => records + prng.between(1, 3),
        _ => records,
    };
    let answered = records.min(places);
    let rows = match prng.weighted(&[10, 15, 20, 40, 15]) {
        0 => 0,
        1 => prng.below(answered + 1),
        2 => answered,
        3 => answered * prng.between(2, 4),
        _ => prng.below(4 * answered + 4),
    };
    let part = prng.one_of(&[0, 0, 0, 1, RECORD - 1]);
    bytes.extend(prng.bytes(part));
    Asked {
        words: bytes,
        places: PLACE * places + prng.one_of(&[0, 0, 0, 1, PLACE - 1]),
        rows: ROW * rows + prng.one_of(&[0, 0, 0, 1, 58, ROW - 1]),
    }
}
