//! An entry's record goes by the image's form: one continuation in form 1, an end mark and a bit for each lexicon in form 2.

use crate::grammar::{Entry, END};
use crate::image::{named, Counts};

/// The bytes of an entry's record.
pub fn entry_width(image_form: usize) -> usize {
    match image_form {
        2 => 24,
        _ => 16,
    }
}

/// The entries of a full block.
pub fn entries_in_block(image_form: usize) -> usize {
    match image_form {
        2 => 21,
        _ => 31,
    }
}

/// Test 8 of one record.
pub(crate) fn entry_fits(record: &[u8], c: &Counts) -> bool {
    let length = usize::from(record[0]);
    length <= 12
        && record[1..1 + length]
            .iter()
            .all(|&x| (2..=c.letters).contains(&usize::from(x)))
        && record[1 + length..13].iter().all(|&x| x == 0)
        && ways_fit(record, c)
}

fn ways_fit(record: &[u8], c: &Counts) -> bool {
    let is_lexicon = |&lexicon: &u8| usize::from(lexicon) < c.lexicons;
    if c.form == 1 {
        return record[13] == END || is_lexicon(&record[13]);
    }
    let (mark, lexicons) = (record[13], named(&record[16..24]));
    mark <= 1 && lexicons.iter().all(is_lexicon) && (mark == 1 || !lexicons.is_empty())
}

/// The letters of an entry's form, once its length is known to fit.
pub(crate) fn entry_form(record: &[u8]) -> &[u8] {
    &record[1..1 + usize::from(record[0])]
}

/// What the record of an accepted entry says.
pub(crate) fn entry(record: &[u8], image_form: usize) -> Entry {
    let (ends, lexicons) = match (image_form, record[13]) {
        (2, mark) => (mark == 1, named(&record[16..24])),
        (_, END) => (true, Vec::new()),
        (_, lexicon) => (false, vec![lexicon]),
    };
    Entry {
        form: entry_form(record).to_vec(),
        ends,
        lexicons,
        gloss: u16::from_le_bytes([record[14], record[15]]),
    }
}
