//! Many words in one call: the second engine answers each as alone, in its own place and share, and leaves all other bytes.

use other_engine::calls::{words_reply, Known, PLACE, RECORD};
use other_engine::draft::Draft;
use other_engine::image::read;
use other_engine::listing::{refused, row, ROW};
use other_engine::Reading;

fn luz() -> Known {
    read(&Draft::luz().image())
}

/// A record with this length byte, these letters and bytes 255 after them.
fn record(length: u8, letters: &[u8]) -> Vec<u8> {
    let mut record = vec![255; RECORD];
    record[0] = length;
    record[1..=letters.len()].copy_from_slice(letters);
    record
}

/// The row of a path and a pairing.
fn listed(path: &[u16], pairing: &[u8]) -> Vec<u8> {
    let reading = Reading {
        path: path.to_vec(),
        pairing: pairing.to_vec(),
    };
    row(&reading).to_vec()
}

/// The reply, the places and the rows, of bytes 200 before the call.
fn answered(
    known: &Known,
    words: &[u8],
    places: usize,
    room: usize,
) -> (Option<u64>, Vec<u8>, Vec<u8>) {
    let (mut replies, mut rows) = (vec![200; places], vec![200; room]);
    let reply = words_reply(known, words, &mut replies, &mut rows).ok();
    (reply, replies, rows)
}

fn places(numbers: &[u64]) -> Vec<u8> {
    numbers.iter().flat_map(|n| n.to_le_bytes()).collect()
}

#[test]
fn each_word_has_its_place_and_its_share() {
    let words = [
        record(3, &[5, 7, 8]),
        record(5, &[5, 7, 8, 4, 6]),
        record(5, &[5, 7, 3, 4, 6]),
    ];
    let blank = |rows: usize| vec![200; ROW * rows];
    let luz_row = listed(&[0, 2], &[3, 5, 7]);
    let luces = [
        listed(&[0, 3], &[3, 5, 6, 0, 2, 4]),
        listed(&[1, 3], &[3, 5, 1, 0, 2, 4]),
    ]
    .concat();
    // eight rows are two for each, and two are left, and a part of one
    let rows = [
        &luz_row,
        &blank(1),
        &blank(2),
        &luces,
        &blank(2),
        &vec![200; 5],
    ]
    .map(Vec::clone);
    assert_eq!(
        answered(&luz(), &words.concat(), 3 * PLACE, 8 * ROW + 5),
        (Some(4 * 3 + 1), places(&[5, 0, 9]), rows.concat())
    );
    // fewer rows than words: a share of none
    assert_eq!(
        answered(&luz(), &words.concat(), 3 * PLACE, 2 * ROW),
        (Some(4 * 3 + 1), places(&[2, 0, 2]), blank(2))
    );
}

#[test]
fn words_are_whole_records_that_have_whole_places() {
    let words = [record(3, &[5, 7, 8]), record(3, &[5, 7, 3])].concat();
    for (length, room, count) in [
        (2 * RECORD, 2 * PLACE, 2),
        (2 * RECORD - 1, 2 * PLACE, 1),
        (2 * RECORD, 2 * PLACE - 1, 1),
        (RECORD + 1, 4 * PLACE, 1),
        (RECORD - 1, 2 * PLACE, 0),
        (2 * RECORD, PLACE - 1, 0),
        (0, 0, 0),
    ] {
        let (reply, replies, rows) = answered(&luz(), &words[..length], room, 2 * ROW);
        assert_eq!(reply, Some(4 * count as u64 + 1), "{length} bytes");
        assert_eq!(replies[..PLACE * count], places(&[5, 5])[..PLACE * count]);
        assert!(replies[PLACE * count..].iter().all(|&byte| byte == 200));
        // one word has both rows, and writes one
        assert!(rows[ROW * count..].iter().all(|&byte| byte == 200));
    }
}

#[test]
fn a_refused_word_stops_no_other() {
    let words = [
        record(0, &[5, 7, 8]),
        record(33, &[5, 7, 8]),
        record(255, &[5, 7, 8]),
        record(32, &[5; 32]),
        record(3, &[5, 7, 10]),
        record(3, &[1, 7, 8]),
        record(3, &[5, 7, 8]),
    ];
    let (reply, replies, rows) = answered(&luz(), &words.concat(), 7 * PLACE, 7 * ROW);
    let numbers = [39, 39, 39, 0, 43, 43, 5];
    assert_eq!((reply, replies), (Some(4 * 7 + 1), places(&numbers)));
    assert!(rows[..6 * ROW].iter().all(|&byte| byte == 200));
    assert_eq!(rows[6 * ROW..], listed(&[0, 2], &[3, 5, 7]));
}

#[test]
fn a_refused_image_leaves_all_bytes() {
    let mut image = Draft::luz().image();
    image[7] ^= 1;
    let known = read(&image);
    for count in [0, 1, 16] {
        let words = record(3, &[5, 7, 8]).repeat(count);
        assert_eq!(
            answered(&known, &words, PLACE * count, ROW * count),
            (
                Some(refused(2)),
                vec![200; PLACE * count],
                vec![200; ROW * count]
            )
        );
    }
}
