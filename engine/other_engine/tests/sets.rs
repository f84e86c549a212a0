//! Named sets of letters in columns hold of the second engine: what they match, how narrow they are, and where they are refused.

use other_engine::calls::{analyse, generate};
use other_engine::draft::{Draft, DraftEntry, DraftTable};
use other_engine::grammar::Grammar;
use other_engine::image::{read, seal};

const ANY: u8 = 255;
/// The sides that name sets 0, 1 and 30.
const A: u8 = 128;
const B: u8 = 129;
const LAST: u8 = 158;

fn entry(form: &[u8]) -> DraftEntry {
    DraftEntry::with_one_way(form.to_vec(), 255, 0)
}

/// A table of these columns and rows, every state final.
fn table(columns: &[(u8, u8)], rows: &[&[u8]]) -> DraftTable {
    DraftTable {
        columns: columns.to_vec(),
        finals: vec![1; rows.len()],
        rows: rows.iter().map(|row| row.to_vec()).collect(),
    }
}

/// A grammar of so many letters with these pairs and sets, and one rule of one state with these columns.
fn draft(letters: u16, pairs: &[(u8, u8)], sets: &[&[u8]], columns: &[(u8, u8)]) -> Draft {
    let row = vec![1; columns.len()];
    Draft {
        image_form: 1,
        letters: (97..97 + letters).collect(),
        pairs: pairs.to_vec(),
        sets: sets.iter().map(|set| set.to_vec()).collect(),
        tables: vec![table(columns, &[&row])],
        lexicons: vec![vec![entry(&[])]],
    }
}

fn refusal(image: &[u8]) -> u8 {
    read(image).err().unwrap_or(0)
}

fn accepted(draft: &Draft) -> Grammar {
    read(&draft.image()).expect("an accepted grammar")
}

/// The column that each pair and, last, the boundary pair takes, or none where the image is refused by 7.
fn takes(draft: &Draft) -> Option<Vec<usize>> {
    match read(&draft.image()) {
        Ok(grammar) => Some(grammar.tables[0].takes.clone()),
        Err(k) => {
            assert_eq!(k, 7);
            None
        }
    }
}

/// The image of a draft with some bytes of one block changed and sealed again.
fn damaged(draft: &Draft, block: usize, changes: &[(usize, u8)]) -> Vec<u8> {
    let mut image = draft.image();
    for &(at, byte) in changes {
        image[block * 512 + at] = byte;
    }
    resealed(image)
}

fn resealed(mut image: Vec<u8>) -> Vec<u8> {
    seal(&mut image).unwrap();
    image
}

// The letters 2 to 10 of the Quichua grammar.
const LETTERS: &str = "#aeinryqǧQ";
// Its pairs.
const AA: u8 = 0;
const IE: u8 = 1;
const II: u8 = 2;
const NN: u8 = 3;
const QQ: u8 = 6;
const GG: u8 = 7;
const DROP: u8 = 8;

/// Rule 3 of source document 001, appendix A.1: i is written e before a postvelar, also over a transparent sound.
fn quichua() -> Draft {
    Draft {
        image_form: 1,
        letters: LETTERS.encode_utf16().collect(),
        pairs: vec![
            (2, 2),
            (4, 3),
            (4, 4),
            (5, 5),
            (6, 6),
            (7, 7),
            (8, 8),
            (9, 9),
            (10, 0),
        ],
        // Ftr and CPos.
        sets: vec![vec![7, 5, 6], vec![8, 9, 10]],
        tables: vec![table(
            &[(4, 3), (4, 4), (A, ANY), (B, ANY), (ANY, ANY)],
            &[
                &[2, 5, 1, 1, 1],
                &[2, 0, 3, 4, 1],
                &[2, 5, 3, 4, 1],
                &[2, 5, 1, 1, 1],
                &[2, 5, 6, 0, 1],
                &[2, 5, 1, 0, 1],
            ],
        )],
        lexicons: vec![vec![entry(&[4, 8]), entry(&[4, 5, 8]), entry(&[4, 2])]],
    }
}

#[test]
fn an_i_before_a_postvelar_is_written_e() {
    let grammar = accepted(&quichua());
    for (pairing, passes) in [
        (&[II, QQ][..], false),
        (&[II, GG], false),
        (&[II, DROP], false),
        (&[IE, QQ], true),
        (&[IE, DROP], true),
        (&[II, NN, QQ], false),
        (&[II, 4, QQ], false),
        (&[II, 5, DROP], false),
        (&[IE, NN, QQ], true),
        (&[II, AA], true),
        (&[II, NN], true),
        (&[II, AA, QQ], true),
        (&[II], true),
    ] {
        assert_eq!(grammar.passes(pairing), passes, "{pairing:?}");
    }
}

#[test]
fn words_are_read_over_sets() {
    let known = read(&quichua().image());
    let readings = |word: &[u8]| analyse(&known, word).unwrap().len();
    assert_eq!(readings(&[4, 8]), 0);
    assert_eq!(readings(&[3, 8]), 1);
    assert_eq!(readings(&[4, 5, 8]), 0);
    assert_eq!(readings(&[3, 5, 8]), 1);
    assert_eq!(readings(&[4, 2]), 1);
    let written = generate(&known, &[1, 0]).unwrap();
    assert_eq!(written.len(), 1);
    assert_eq!(written[0].pairing, [IE, NN, QQ]);
}

#[test]
fn sets_change_nothing_where_no_side_names_them() {
    let mut draft = Draft::luz();
    draft.sets = vec![vec![0, 1, 9], vec![]];
    let image = draft.image();
    assert_eq!(image.len(), Draft::luz().image().len() + 512);
    assert_eq!(image[16..18], [2, 0]);
    let known = read(&image);
    let plain = read(&Draft::luz().image());
    for word in [
        &[5, 7, 8][..],
        &[5, 7, 3],
        &[5, 7, 3, 4, 6],
        &[5, 7, 8, 4, 6],
    ] {
        assert_eq!(analyse(&known, word), analyse(&plain, word));
    }
}

#[test]
fn the_block_of_sets_is_laid_out_by_bits() {
    let mut draft = Draft::luz();
    draft.sets = vec![vec![0, 9], vec![1, 7, 8]];
    let image = draft.image();
    let block = &image[3 * 512..4 * 512];
    assert_eq!(block[..4], [3, 0, 7, 2]);
    assert_eq!(block[4..8], [1, 2, 0, 0]);
    assert_eq!(block[20..24], [130, 1, 0, 0]);
    assert!(block[24..510].iter().all(|&b| b == 0));
    let grammar = accepted(&draft);
    assert_eq!(grammar.sets, draft.sets);
}

#[test]
fn each_letter_has_its_own_bit() {
    let pairs: Vec<(u8, u8)> = (2..=120).map(|x| (x, x)).collect();
    for letter in 0..=120 {
        let sets: &[&[u8]] = &[&[letter]];
        let draft = draft(120, &pairs, sets, &[(A, ANY), (ANY, ANY)]);
        let taken = takes(&draft).unwrap();
        for (place, &column) in taken.iter().enumerate() {
            let fed = if place == 119 { 1 } else { place as u8 + 2 };
            assert_eq!(column == 0, fed == letter, "{letter} {fed}");
        }
        assert_eq!(refusal(&draft.image()), 0);
    }
}

#[test]
fn a_set_may_hold_the_null_and_the_boundary() {
    let pairs = [(2, 2), (2, 0), (0, 3)];
    // Lexical sides: the null is that of an insertion, never that of a deletion.
    for (set, expected) in [
        (&[0][..], [1, 1, 0, 1]),
        (&[1], [1, 1, 1, 0]),
        (&[0, 1], [1, 1, 0, 0]),
        (&[2], [0, 0, 1, 1]),
        (&[0, 3], [1, 1, 0, 1]),
        (&[3], [1, 1, 1, 1]),
    ] {
        let draft = draft(3, &pairs, &[set], &[(A, ANY), (ANY, ANY)]);
        assert_eq!(takes(&draft).unwrap(), expected, "{set:?}");
    }
    // Surface sides, the other way round.
    for (set, expected) in [
        (&[0][..], [1, 0, 1, 1]),
        (&[1], [1, 1, 1, 0]),
        (&[0, 3], [1, 0, 0, 1]),
    ] {
        let draft = draft(3, &pairs, &[set], &[(ANY, A), (ANY, ANY)]);
        assert_eq!(takes(&draft).unwrap(), expected, "{set:?}");
    }
    // Without the boundary in its set a table has no column for it.
    let columns = [(A, B)];
    let with = draft(3, &pairs, &[&[0, 1, 2], &[0, 1, 2, 3]], &columns);
    assert_eq!(takes(&with).unwrap(), [0; 4]);
    for sets in [
        [&[0, 2][..], &[0, 1, 2, 3]],
        [&[0, 1, 2], &[0, 2, 3]],
        [&[1, 2], &[0, 1, 2, 3]],
        [&[0, 1, 2], &[1, 2, 3]],
    ] {
        assert_eq!(takes(&draft(3, &pairs, &sets, &columns)), None, "{sets:?}");
    }
}

#[test]
fn an_empty_set_matches_nothing() {
    let pairs = [(2, 2), (2, 0), (0, 3)];
    let columns = [(A, ANY), (ANY, A), (A, A), (ANY, ANY)];
    let with_any = draft(3, &pairs, &[&[]], &columns);
    assert_eq!(takes(&with_any).unwrap(), [3; 4]);
    assert_eq!(takes(&draft(3, &pairs, &[&[]], &columns[..3])), None);
}

#[test]
fn narrowness_counts_pairs_and_never_members() {
    // Both sets have letter 2, and so both columns match the pair 2:2.
    let pairs = [(2, 2), (3, 3), (3, 2), (4, 4)];
    let columns = [(A, ANY), (B, ANY), (ANY, ANY)];
    for (sets, expected) in [
        // Three members that match two pairs, against two members that match three.
        ([&[2, 4, 5][..], &[2, 3]], Some([0, 1, 1, 0, 2])),
        ([&[2, 5, 6], &[2, 4]], Some([0, 2, 2, 1, 2])),
        // Sets of unlike size that match as many pairs tie where they meet.
        ([&[2, 4], &[2, 4, 5, 6]], None),
        ([&[2, 5], &[2]], None),
        ([&[0, 2], &[2]], None),
        // As many pairs and no meeting is no tie.
        ([&[2, 5], &[4]], Some([0, 2, 2, 1, 2])),
        // The boundary counts as a pair.
        ([&[1, 2], &[2]], Some([1, 2, 2, 2, 0])),
        ([&[1, 2], &[2, 4]], None),
    ] {
        let draft = draft(6, &pairs, &sets, &columns);
        assert_eq!(takes(&draft), expected.map(Vec::from), "{sets:?}");
    }
}

#[test]
fn two_sets_that_match_as_many_pairs_are_refused_by_seven() {
    let pairs = [(2, 2), (3, 3), (4, 4)];
    for columns in [
        [(A, ANY), (B, ANY), (ANY, ANY)],
        [(A, A), (B, B), (ANY, ANY)],
        [(ANY, ANY), (ANY, B), (A, ANY)],
    ] {
        let tied = draft(4, &pairs, &[&[2, 3], &[3, 4]], &columns);
        assert_eq!(refusal(&tied.image()), 7);
        let equal = draft(4, &pairs, &[&[2, 3], &[2, 3]], &columns);
        assert_eq!(refusal(&equal.image()), 7);
        let apart = draft(4, &pairs, &[&[2], &[3, 4]], &columns);
        assert_eq!(refusal(&apart.image()), 0);
    }
    // A set of all letters, null and boundary is as wide as any.
    let columns = [(A, ANY), (ANY, ANY)];
    let widest = draft(4, &pairs, &[&[0, 1, 2, 3, 4]], &columns);
    assert_eq!(refusal(&widest.image()), 7);
}

#[test]
fn a_single_letter_is_narrower_unless_it_matches_as_many_pairs() {
    let pairs = [(2, 2), (2, 3), (3, 3)];
    let columns = [(2, ANY), (A, ANY), (ANY, ANY)];
    let wider = draft(4, &pairs, &[&[2, 3]], &columns);
    assert_eq!(takes(&wider).unwrap(), [0, 0, 1, 2]);
    // No pair has letter 4, and no lexical side the null.
    for set in [&[2][..], &[2, 4], &[0, 2]] {
        assert_eq!(takes(&draft(4, &pairs, &[set], &columns)), None, "{set:?}");
    }
    let narrower = draft(4, &pairs, &[&[2, 4]], &[(2, ANY), (A, 3), (ANY, ANY)]);
    assert_eq!(takes(&narrower).unwrap(), [0, 1, 2, 2]);
}

#[test]
fn the_two_sides_ask_their_sets_apart() {
    let pairs = [(2, 3), (3, 2), (2, 2), (3, 3)];
    let draft = draft(3, &pairs, &[&[2], &[3]], &[(A, B), (ANY, ANY)]);
    assert_eq!(takes(&draft).unwrap(), [0, 1, 1, 1, 1]);
}

#[test]
fn thirty_one_sets_are_accepted_and_thirty_two_refused_by_three() {
    let all: Vec<&[u8]> = vec![&[2]; 32];
    let columns = [(LAST, ANY), (ANY, ANY)];
    let most = draft(2, &[(2, 2)], &all[..31], &columns);
    assert_eq!(takes(&most).unwrap(), [0, 1]);
    assert_eq!(refusal(&draft(2, &[(2, 2)], &all, &columns).image()), 3);
    // The count alone, in its low byte, in its high byte, and in the block of sets as well.
    for (low, high) in [
        (30, 0),
        (32, 0),
        (31, 1),
        (31, 128),
        (0, 0),
        (0, 1),
        (255, 255),
    ] {
        assert_eq!(refusal(&damaged(&most, 0, &[(16, low), (17, high)])), 3);
    }
    let mut both = most.image();
    both[16] = 32;
    both[3 * 512 + 3] = 32;
    assert_eq!(refusal(&resealed(both)), 3);
}

#[test]
fn the_block_of_sets_is_there_exactly_when_sets_are_counted() {
    let columns = [(ANY, ANY)];
    let none = draft(2, &[(2, 2)], &[], &columns);
    let one = draft(2, &[(2, 2)], &[&[2]], &columns);
    assert_eq!((refusal(&none.image()), refusal(&one.image())), (0, 0));
    // Counted and missing, there and not counted.
    assert_eq!(refusal(&damaged(&none, 0, &[(16, 1)])), 3);
    assert_eq!(refusal(&damaged(&one, 0, &[(16, 0)])), 3);
    let block = one.image()[3 * 512..4 * 512].to_vec();
    for at in 1..=none.image().len() / 512 {
        for (draft, good) in [(&none, None), (&one, Some(3))] {
            // A block of sets at any place, where none is counted or where it is moved from its own.
            let mut image = draft.image();
            if good.is_some() {
                image.drain(3 * 512..4 * 512);
            }
            image.splice(at * 512..at * 512, block.iter().copied());
            let k = if good == Some(at) { 0 } else { 3 };
            assert_eq!(refusal(&resealed(image)), k, "{at}");
        }
    }
    // Twice, and without a record where none is counted.
    let mut twice = one.image();
    twice.splice(3 * 512..3 * 512, block.iter().copied());
    assert_eq!(refusal(&resealed(twice)), 3);
    let mut empty = none.image();
    empty.splice(3 * 512..3 * 512, [0, 0, 7, 0].into_iter().chain([0; 508]));
    assert_eq!(refusal(&resealed(empty)), 3);
}

#[test]
fn kind_record_count_and_unused_bytes_of_the_sets_are_tested_by_three() {
    let sets: &[&[u8]] = &[&[2], &[0, 1, 2]];
    let two = draft(2, &[(2, 2)], sets, &[(B, ANY)]);
    assert_eq!(refusal(&two.image()), 0);
    for kind in [0, 3, 4, 6, 8] {
        assert_eq!(refusal(&damaged(&two, 3, &[(2, kind)])), 3);
    }
    for records in [0, 1, 3, 31] {
        assert_eq!(refusal(&damaged(&two, 3, &[(3, records)])), 3);
    }
    for unused in [4 + 32, 4 + 47, 500, 509] {
        assert_eq!(refusal(&damaged(&two, 3, &[(unused, 4)])), 3);
    }
    for unused in [18, 19, 509] {
        assert_eq!(refusal(&damaged(&two, 0, &[(unused, 1)])), 3);
    }
    let all: Vec<&[u8]> = vec![&[2]; 31];
    let most = draft(2, &[(2, 2)], &all, &[(ANY, ANY)]);
    assert_eq!(refusal(&damaged(&most, 3, &[(500, 1)])), 3);
}

#[test]
fn a_bit_above_the_last_letter_is_refused_by_six() {
    let empty: [&[u8]; 31] = [&[]; 31];
    for last in [2, 6, 7, 8, 15, 16, 63, 119, 120u8] {
        for number in [0, 30] {
            for bit in 0..128 {
                let mut draft = draft(last.into(), &[(2, 2)], &empty, &[(ANY, ANY)]);
                draft.sets[number].push(bit);
                let k = if bit > last { 6 } else { 0 };
                assert_eq!(refusal(&draft.image()), k, "{last} {number} {bit}");
            }
        }
    }
    // Also without a rule.
    let mut ruleless = draft(3, &[(2, 2)], &[&[4]], &[]);
    ruleless.tables.clear();
    assert_eq!(refusal(&ruleless.image()), 6);
}

#[test]
fn a_side_is_a_letter_any_or_a_set_there_is() {
    for (letters, count) in [(2, 0), (5, 1), (5, 7), (120, 0), (120, 30), (120, 31)] {
        let sets: Vec<&[u8]> = vec![&[2]; count];
        for side in 0..=255u8 {
            let fits = match side {
                0..=127 => u16::from(side) <= letters,
                ANY => true,
                _ => usize::from(side - 128) < count,
            };
            for column in [(side, 0), (0, side)] {
                let draft = draft(letters, &[(2, 2)], &sets, &[column, (ANY, ANY)]);
                let k = if fits { 0 } else { 6 };
                assert_eq!(refusal(&draft.image()), k, "{letters} {count} {column:?}");
            }
        }
    }
}

#[test]
fn the_tests_of_sets_keep_their_order() {
    // Each image fails the later tests as well: a bit above L, a tie of two sets, a letter without pair.
    let mut draft = draft(
        3,
        &[(2, 2)],
        &[&[2], &[2]],
        &[(A, ANY), (B, ANY), (ANY, ANY)],
    );
    draft.lexicons[0][0].form = vec![3];
    assert_eq!(refusal(&draft.image()), 7);
    draft.sets[1].push(4);
    assert_eq!(refusal(&draft.image()), 6);
    draft.pairs.push((2, 2));
    assert_eq!(refusal(&draft.image()), 5);
    draft.letters[0] = 0;
    assert_eq!(refusal(&draft.image()), 4);
    draft.sets.resize(32, Vec::new());
    assert_eq!(refusal(&draft.image()), 3);
}
