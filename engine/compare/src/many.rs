//! Calls with many words are of several sorts, by how many words, places and rows there are and by how the words are answered.

use crate::met::met;
use other_engine::calls::{word_count, word_of, PLACE, RECORD};
use other_engine::listing::{refused, ROW};

/// The sorts of calls that should be met.
pub const SORTS: [&str; 18] = [
    "no word",
    "one word",
    "4 words",
    "5 words",
    "15 words",
    "16 words",
    "65536 words",
    "fewer places than records",
    "fewer records than places",
    "a part of a record",
    "a part of a place",
    "fewer rows than words",
    "bytes past the last share",
    "a word with all and one with none",
    "a word with more",
    "a length byte over 32",
    "a letter out of range",
    "rows after a refused word",
];

/// The sorts that a call is of, by an accepted image, with the replies that it left and so many bytes of rows.
pub fn sorts(words: &[u8], replies: &[u8], room: usize) -> Vec<&'static str> {
    let count = word_count(words, replies);
    let mut records = words.chunks_exact(RECORD).take(count);
    let numbers: Vec<u64> = replies
        .chunks_exact(PLACE)
        .take(count)
        .map(|place| u64::from_le_bytes(place.try_into().expect("eight bytes")))
        .collect();
    let is_refused = |&number: &u64| number % 4 == 3;
    let has_rows = |&number: &u64| number > 3 && number % 4 < 3;
    let of_kind = |kind: u64| numbers.iter().any(|number| number % 4 == kind);
    let first_refused = numbers.iter().position(is_refused);
    let rows = room / ROW;
    met(&[
        ("no word", count == 0),
        ("one word", count == 1),
        ("4 words", count == 4),
        ("5 words", count == 5),
        ("15 words", count == 15),
        ("16 words", count == 16),
        ("65536 words", count >= 65_536),
        ("fewer places than records", count < words.len() / RECORD),
        ("fewer records than places", count < replies.len() / PLACE),
        ("a part of a record", words.len() % RECORD > 0),
        ("a part of a place", replies.len() % PLACE > 0),
        ("fewer rows than words", 0 < rows && rows < count),
        (
            "bytes past the last share",
            count > 0 && rows / count > 0 && room % (ROW * count) > 0,
        ),
        (
            "a word with all and one with none",
            of_kind(1) && of_kind(0),
        ),
        ("a word with more", of_kind(2)),
        (
            "a length byte over 32",
            records.any(|record| word_of(record).is_none()),
        ),
        ("a letter out of range", numbers.contains(&refused(10))),
        (
            "rows after a refused word",
            first_refused.is_some_and(|place| numbers[place..].iter().any(has_rows)),
        ),
    ])
}
