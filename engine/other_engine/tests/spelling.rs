//! Code points become letters in the second engine as the request says: the alphabet first, then folded once, and each refusal in its turn.

use other_engine::calls::{analyse, check_reply, spell, spell_reply, Known};
use other_engine::draft::{Draft, DraftEntry};
use other_engine::folding::{folded, lower_case};
use other_engine::image::{read, seal};
use other_engine::listing::refused;

fn luz() -> Known {
    read(&Draft::luz().image())
}

/// The bytes of a text's code points, which are of two bytes each.
fn points(text: &str) -> Vec<u8> {
    bytes(&text.encode_utf16().collect::<Vec<u16>>())
}

fn bytes(points: &[u16]) -> Vec<u8> {
    points
        .iter()
        .flat_map(|point| point.to_le_bytes())
        .collect()
}

/// A grammar with these letters, the first of them the boundary, one pair and one empty entry.
fn alphabet(letters: &[u16]) -> Known {
    let entry = DraftEntry::with_one_way(Vec::new(), 255, 0);
    let draft = Draft {
        image_form: 1,
        letters: letters.to_vec(),
        pairs: vec![(2, 2)],
        sets: Vec::new(),
        tables: Vec::new(),
        lexicons: vec![vec![entry]],
    };
    let known = read(&draft.image());
    assert_eq!(check_reply(&known), 1);
    known
}

/// A grammar whose letters are the characters of a text.
fn written(letters: &str) -> Known {
    alphabet(&letters.encode_utf16().collect::<Vec<u16>>())
}

/// The reply and the output, of bytes 200 before the call.
fn spelled(known: &Known, points: &[u8], room: usize) -> (u64, Vec<u8>) {
    let mut letters = vec![200; room];
    let reply = spell_reply(known, points, &mut letters);
    (reply, letters)
}

/// Whether a call is refused with k and leaves its output as it was.
fn is_refused(known: &Known, points: &[u8], room: usize, k: u8) -> bool {
    spelled(known, points, room) == (refused(k), vec![200; room])
}

#[test]
fn capitals_spell_the_letters_of_luces() {
    let known = luz();
    for text in ["luces", "Luces", "LUCES", "lUcEs"] {
        let word = spell(&known, &points(text)).unwrap();
        assert_eq!(word, [5, 7, 3, 4, 6]);
        assert_eq!(analyse(&known, &word).unwrap().len(), 2);
    }
    let (reply, letters) = spelled(&known, &points("LUCES"), 7);
    assert_eq!(reply, 4 * 5 + 1);
    assert_eq!(letters, [5, 7, 3, 4, 6, 200, 200]);
}

#[test]
fn the_capital_of_luz_stays() {
    let known = luz();
    assert_eq!(spell(&known, &points("luz")), Ok(vec![5, 7, 8]));
    for text in ["luZ", "LUZ", "LuZ"] {
        assert_eq!(spell(&known, &points(text)), Ok(vec![5, 7, 9]));
    }
}

#[test]
fn a_code_point_without_letter_is_refused_at_any_place() {
    let known = luz();
    for point in [
        0, 1, 0x23, 0x41, 0x61, 0x16c, 384, 0xd800, 0xdbff, 0xdc00, 0xdfff, 0xffff,
    ] {
        for place in 0..3 {
            let mut word = [0x6c, 0x75, 0x7a];
            word[place] = point;
            assert!(is_refused(&known, &bytes(&word), 3, 23), "{point}");
        }
        assert!(is_refused(&known, &bytes(&[point]), 1, 23), "{point}");
    }
    // Two surrogates are two code points, whatever they would be together.
    assert!(is_refused(&known, &points("\u{10400}"), 2, 23));
}

#[test]
fn words_of_thirty_two_and_thirty_three_code_points() {
    let known = luz();
    for count in [1, 2, 31, 32] {
        let (reply, letters) = spelled(&known, &points(&"U".repeat(count)), 40);
        assert_eq!(reply, 4 * count as u64 + 1);
        assert_eq!(letters[..count], vec![7; count]);
        assert_eq!(letters[count..], vec![200; 40 - count]);
    }
    for count in [33, 34, 64, 128, 129, 32_769] {
        assert!(is_refused(&known, &points(&"U".repeat(count)), 40, 9));
    }
}

#[test]
fn no_code_points_and_an_odd_byte_are_refused_by_nine() {
    let known = luz();
    assert!(is_refused(&known, &[], 0, 9));
    assert!(is_refused(&known, &[], 40, 9));
    let word = points(&"u".repeat(33));
    for count in [1, 3, 63, 65] {
        assert!(is_refused(&known, &word[..count], 40, 9));
    }
}

#[test]
fn an_output_shorter_than_the_word_is_refused() {
    let known = luz();
    for room in 0..5 {
        assert!(is_refused(&known, &points("Luces"), room, 24));
    }
    assert_eq!(
        spelled(&known, &points("Luces"), 5),
        (21, vec![5, 7, 3, 4, 6])
    );
    assert!(is_refused(&known, &points(&"l".repeat(32)), 31, 24));
    assert!(is_refused(&known, &points("l"), 0, 24));
}

#[test]
fn refusals_come_in_their_order() {
    let known = luz();
    // 9 ahead of 23 and 24.
    assert!(is_refused(&known, &bytes(&[0; 33]), 0, 9));
    assert!(is_refused(&known, &[0], 0, 9));
    assert!(is_refused(&known, &[0, 0, 0], 0, 9));
    assert!(is_refused(&known, &[], 0, 9));
    // 23 ahead of 24, by the last code point as by the first.
    for room in 0..5 {
        assert!(is_refused(&known, &points("#uces"), room, 23));
        assert!(is_refused(&known, &points("luce#"), room, 23));
    }
}

#[test]
fn an_image_is_refused_first() {
    let draft = Draft::luz();
    let mut wrong_check = draft.image();
    wrong_check[7] ^= 1;
    let mut repeated = draft.clone();
    repeated.letters[2] = repeated.letters[1];
    let mut unspelled = draft.clone();
    unspelled.pairs.retain(|pair| pair.0 != 4);
    let images = [
        (1, vec![0; 511]),
        (2, wrong_check),
        (4, repeated.image()),
        (14, unspelled.image()),
    ];
    for (k, image) in images {
        let known = read(&image);
        for given in [
            points("luz"),
            Vec::new(),
            vec![0],
            bytes(&[0]),
            bytes(&[0; 33]),
        ] {
            for room in [0, 40] {
                assert!(is_refused(&known, &given, room, k));
            }
        }
    }
}

#[test]
fn a_surrogate_in_the_alphabet_is_the_images_refusal() {
    let mut draft = Draft::luz();
    draft.letters[8] = 0xd800;
    let mut image = draft.unsealed();
    seal(&mut image).unwrap();
    assert!(is_refused(&read(&image), &bytes(&[0xd800]), 1, 4));
}

#[test]
fn a_capital_and_its_lower_case_may_both_be_letters() {
    let known = written("#aAÉéñ");
    assert_eq!(spell(&known, &points("aA")), Ok(vec![2, 3]));
    assert_eq!(spell(&known, &points("éÉ")), Ok(vec![5, 4]));
    assert_eq!(spell(&known, &points("ñÑ")), Ok(vec![6, 6]));
    // Nothing is made a capital.
    let known = written("#AÑ");
    assert_eq!(spell(&known, &points("AÑ")), Ok(vec![2, 3]));
    assert_eq!(spell(&known, &points("a")), Err(23));
    assert_eq!(spell(&known, &points("ñ")), Err(23));
}

#[test]
fn the_boundary_is_no_letter_either_way() {
    let known = written("xyX");
    assert_eq!(spell(&known, &points("x")), Err(23));
    assert_eq!(spell(&known, &points("X")), Ok(vec![3]));
    let known = written("xyz");
    assert_eq!(spell(&known, &points("x")), Err(23));
    // Folded to the boundary.
    assert_eq!(spell(&known, &points("X")), Err(23));
    assert_eq!(spell(&known, &points("YZ")), Ok(vec![2, 3]));
    // The boundary's own code point is in the alphabet, so it is not folded to a letter.
    let known = written("Xxy");
    assert_eq!(spell(&known, &points("X")), Err(23));
    assert_eq!(spell(&known, &points("xY")), Ok(vec![2, 3]));
}

#[test]
fn capitals_whose_lower_case_lies_far_off() {
    let known = written("#iÿ");
    assert_eq!(
        spell(&known, &bytes(&[0x130, 0x178, 0x49, 0xff])),
        Ok(vec![2, 3, 2, 3])
    );
    // Neither the dotless i nor the dot above comes of folding.
    let known = alphabet(&[0x23, 0x131, 0x307]);
    assert_eq!(spell(&known, &bytes(&[0x130])), Err(23));
    assert_eq!(spell(&known, &points("I")), Err(23));
    let known = alphabet(&[0x23, 0x130, 0x69]);
    assert_eq!(spell(&known, &bytes(&[0x130, 0x49])), Ok(vec![2, 3]));
}

#[test]
fn nothing_above_383_is_folded() {
    let known = written("#σбǆkåßω");
    for text in ["Σ", "Б", "Ǆ", "ǅ", "\u{212a}", "\u{212b}", "ẞ", "\u{2126}"] {
        let capital = text.encode_utf16().next().unwrap();
        assert_ne!(lower_case(capital), capital);
        assert_eq!(spell(&known, &points(text)), Err(23), "{text}");
    }
    assert_eq!(spell(&known, &points("σбǆ")), Ok(vec![2, 3, 4]));
    assert_eq!(spell(&known, &points("KÅß")), Ok(vec![5, 6, 7]));
    // Above 383 as below it, a letter of the alphabet is its own.
    assert_eq!(spell(&written("#Σσ"), &points("Σσ")), Ok(vec![2, 3]));
}

#[test]
fn small_letters_that_other_mappings_change_stay() {
    let known = written("#sμkß");
    for text in ["ſ", "µ", "ĸ", "ŉ"] {
        assert_eq!(spell(&known, &points(text)), Err(23), "{text}");
    }
    assert_eq!(spell(&written("#ſµĸŉ"), &points("ſµĸŉ")).unwrap().len(), 4);
}

#[test]
fn the_last_letter_is_found() {
    let letters: Vec<u16> = (1_000..1_119).chain([0x7a]).collect();
    let known = alphabet(&letters);
    assert_eq!(
        spell(&known, &bytes(&[1_001, 1_118, 0x5a])),
        Ok(vec![2, 119, 120])
    );
}

#[test]
fn folding_is_the_simple_mapping_and_twice_is_once() {
    for point in 0..=65_535 {
        assert_eq!(folded(folded(point)), folded(point));
    }
    let capitals = (0..=383).filter(|&point| folded(point) != point);
    assert_eq!(capitals.count(), 119);
    assert!((384..=65_535).all(|point| folded(point) == point));
    // The places where the mapping is not the next code point, or 32 further on.
    let odd: Vec<(u16, u16)> = (0..=383)
        .map(|point| (point, folded(point)))
        .filter(|(point, small)| ![0, 1, 32].contains(&small.wrapping_sub(*point)))
        .collect();
    assert_eq!(odd, [(0x130, 0x69), (0x178, 0xff)]);
}
