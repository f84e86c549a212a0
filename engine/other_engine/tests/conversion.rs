//! The converter of the second engine: both ways, there and back, and what it refuses.

use other_engine::calls::{analyse, generate};
use other_engine::conversion::{convert_reply, converted};
use other_engine::draft::{Draft, DraftEntry};
use other_engine::image::{read, seal};
use other_engine::listing::refused;

/// The reply, and the target afterwards, which held sevens.
fn convert(image: &[u8], room: usize) -> (u64, Vec<u8>) {
    let mut target = vec![7; room];
    let reply = convert_reply(&read(image), &mut target);
    (reply, target)
}

/// The other form of an image that is converted.
fn other(image: &[u8]) -> Vec<u8> {
    let length = converted(&read(image))
        .expect("an image that is converted")
        .len();
    let (reply, target) = convert(image, length);
    assert_eq!(reply, 1);
    target
}

fn is_refused(image: &[u8], room: usize, k: u8) {
    assert_eq!(convert(image, room), (refused(k), vec![7; room]), "{k}");
}

/// The letters # l, no rules, and one lexicon with these entries; a second one is empty.
fn plain(image_form: usize, entries: Vec<DraftEntry>) -> Draft {
    Draft {
        image_form,
        letters: vec![35, 108],
        pairs: vec![(2, 2)],
        sets: Vec::new(),
        tables: Vec::new(),
        lexicons: vec![entries, Vec::new()],
    }
}

fn entry(ends: bool, lexicons: &[u8]) -> DraftEntry {
    DraftEntry {
        form: vec![2],
        ends,
        lexicons: lexicons.to_vec(),
        gloss: 258,
    }
}

#[test]
fn luz_is_converted_and_back() {
    let luz = Draft::luz().image();
    let two = other(&luz);
    assert_eq!(two.len(), 3_072);
    let checks = two
        .chunks(512)
        .map(|block| u16::from_le_bytes([block[510], block[511]]));
    assert_eq!(
        checks.collect::<Vec<u16>>(),
        [250, 11_848, 1_207, 9_415, 52, 2_677]
    );
    assert_eq!(two[4], 2);
    assert_eq!(two[512..5 * 512], luz[512..5 * 512]);
    // luZ goes on to lexicon 1, and the empty entry ends.
    let records: Vec<&[u8]> = two[5 * 512 + 4..].chunks(24).take(4).collect();
    assert_eq!(
        records[0][..16],
        [3, 5, 7, 9, 0, 0, 0, 0, 0, 0, 0, 0, 0, 0, 0, 0]
    );
    assert_eq!(records[0][16..], [2, 0, 0, 0, 0, 0, 0, 0]);
    assert_eq!(
        records[2][..16],
        [0, 0, 0, 0, 0, 0, 0, 0, 0, 0, 0, 0, 0, 1, 2, 0]
    );
    assert_eq!(records[2][16..], [0; 8]);
    assert_eq!(other(&two), luz);
}

#[test]
fn rows_are_alike_before_and_after() {
    let luz = Draft::luz().image();
    let (one, two) = (read(&luz), read(&other(&luz)));
    for word in [
        &[5, 7, 8][..],
        &[5, 7, 3],
        &[5, 7, 3, 4, 6],
        &[5, 7, 8, 4, 6],
        &[],
        &[1],
    ] {
        assert_eq!(analyse(&one, word), analyse(&two, word));
    }
    for path in [&[0, 0, 3, 0][..], &[1, 0, 2, 0], &[0, 0], &[2, 0], &[]] {
        assert_eq!(generate(&one, path), generate(&two, path));
    }
}

#[test]
fn every_lexicon_and_gloss_is_kept() {
    let mut draft = plain(1, Vec::new());
    draft.lexicons.resize(64, Vec::new());
    for lexicon in (0..64).chain([255]) {
        let mut entry = DraftEntry::with_one_way(vec![2], lexicon, 513);
        entry.gloss += u16::from(lexicon);
        draft.lexicons[7].push(entry);
    }
    let one = draft.image();
    draft.image_form = 2;
    let two = draft.image();
    assert_eq!(other(&one), two);
    assert_eq!(other(&two), one);
}

#[test]
fn sets_and_rules_stay_where_they_are() {
    let mut draft = Draft::luz();
    draft.sets = vec![vec![0, 1, 9], Vec::new(), vec![2]];
    let table = draft.tables[0].clone();
    draft.tables.resize(32, table);
    let one = draft.image();
    let two = other(&one);
    assert_eq!(two[512..37 * 512], one[512..37 * 512]);
    assert_eq!(other(&two), one);
}

#[test]
fn more_than_one_way_on_is_refused_by_15() {
    let both = plain(2, vec![entry(true, &[1])]).image();
    let two = plain(2, vec![entry(false, &[0, 1])]).image();
    for image in [both, two] {
        assert!(read(&image).is_ok());
        // Whatever the target, one that would fit and none.
        for room in [image.len(), image.len() - 512, 0, 1] {
            is_refused(&image, room, 15);
        }
    }
    // A way to an empty lexicon is a way, and one of them is no more than one.
    let one = plain(2, vec![entry(false, &[1])]).image();
    assert_eq!(other(&other(&one)), one);
    // The last of many entries counts as the first.
    let mut entries = vec![entry(true, &[]); 2_000];
    entries.push(entry(true, &[0]));
    is_refused(&plain(2, entries).image(), 0, 15);
}

#[test]
fn refusals_of_the_image_come_before_15() {
    let mut draft = plain(2, vec![entry(true, &[1])]);
    draft.letters.push(120);
    draft.lexicons[0][0].form = vec![3];
    is_refused(&draft.image(), 0, 14);
    draft.lexicons[0][0].lexicons = vec![0, 2];
    is_refused(&draft.image(), 0, 8);
    let mut image = draft.image();
    image[4] = 3;
    is_refused(&image, 0, 2);
    seal(&mut image).unwrap();
    is_refused(&image, 0, 3);
    is_refused(&image[..511], 0, 1);
    is_refused(&[], 0, 1);
}

#[test]
fn more_than_128_blocks_are_refused_by_16() {
    // Two lexicons take the one block that one would.
    let most = plain(1, vec![entry(true, &[]); 2_604]).image();
    let two = other(&most);
    assert_eq!(two.len(), 65_536);
    assert_eq!(other(&two), most);
    let image = plain(1, vec![entry(true, &[]); 2_605]).image();
    for room in [0, 129 * 512, 65_536, image.len()] {
        is_refused(&image, room, 16);
    }
    assert_eq!(
        plain(1, vec![entry(true, &[]); 2_800]).image().len(),
        95 * 512
    );
    is_refused(&plain(1, vec![entry(true, &[]); 2_800]).image(), 0, 16);
}

#[test]
fn another_length_is_refused_by_17() {
    // 22 entries are one block in form 1 and two in form 2.
    let one = plain(1, vec![entry(true, &[]); 22]).image();
    let two = other(&one);
    assert_eq!((one.len(), two.len()), (5 * 512, 6 * 512));
    for (image, fits) in [(&one, two.len()), (&two, one.len())] {
        for room in [
            0,
            1,
            511,
            fits - 512,
            fits - 1,
            fits + 1,
            fits + 512,
            image.len(),
            65_536,
        ] {
            is_refused(image, room, 17);
        }
    }
}
