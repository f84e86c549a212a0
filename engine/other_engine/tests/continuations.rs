//! Several continuations for one entry hold of the second engine: form 2 of the image, what it is refused for, its paths and their order.

use other_engine::calls::{analyse, check_reply, form, generate, judge, spell, words_reply, Known};
use other_engine::draft::{Draft, DraftEntry};
use other_engine::image::{read, seal};
use other_engine::listing::{list, refused, row, ROW};
use other_engine::reading::ENDING;
use other_engine::{Reading, Stop};

/// An entry of form 2.
fn entry(form: &[u8], ends: bool, lexicons: &[u8]) -> DraftEntry {
    DraftEntry {
        form: form.to_vec(),
        ends,
        lexicons: lexicons.to_vec(),
        gloss: 0,
    }
}

/// A form 2 grammar with the letters # l x, these pairs and lexicons, and no rules.
fn plain(pairs: &[(u8, u8)], lexicons: Vec<Vec<DraftEntry>>) -> Draft {
    Draft {
        image_form: 2,
        letters: "#lx".bytes().map(u16::from).collect(),
        pairs: pairs.to_vec(),
        sets: Vec::new(),
        tables: Vec::new(),
        lexicons,
    }
}

const L: u8 = 2;
const X: u8 = 3;
const LL: (u8, u8) = (L, L);
const XX: (u8, u8) = (X, X);
const COME: (u8, u8) = (0, X);

/// The luz grammar without its empty entry: luZ and luc may stop, or go on with +es.
fn luz_2() -> Draft {
    let mut draft = Draft::luz();
    draft.image_form = 2;
    draft.lexicons = vec![
        vec![entry(&[5, 7, 9], true, &[1]), entry(&[5, 7, 3], true, &[1])],
        vec![entry(&[2, 4, 6], true, &[])],
    ];
    draft
}

fn known(draft: &Draft) -> Known {
    read(&draft.image())
}

fn bytes(path: &[u16]) -> Vec<u8> {
    path.iter().flat_map(|e| e.to_le_bytes()).collect()
}

/// The rows of a word, each as its path and its pairing.
fn rows(draft: &Draft, word: &[u8]) -> Vec<(Vec<u16>, Vec<u8>)> {
    let readings = analyse(&known(draft), word).expect("a word that is answered");
    let row = |reading: Reading| (reading.path, reading.pairing);
    readings.into_iter().map(row).collect()
}

/// Asserts the rows of a word.
fn assert_rows(draft: &Draft, word: &[u8], expected: &[(&[u16], &[u8])]) {
    let owned = expected
        .iter()
        .map(|(path, pairing)| (path.to_vec(), pairing.to_vec()));
    assert_eq!(rows(draft, word), owned.collect::<Vec<_>>());
}

/// The refusal of an image, or 0.
fn refusal(image: &[u8]) -> u8 {
    read(image).err().unwrap_or(0)
}

/// The refusal of a draft's image with one byte changed, counted from the end of the block's head in the first block of entries.
fn damaged(draft: &Draft, at: usize, byte: u8) -> u8 {
    let mut image = draft.image();
    let first = image.chunks(512).position(|block| block[2] == 6).unwrap();
    image[first * 512 + 4 + at] = byte;
    seal(&mut image).unwrap();
    refusal(&image)
}

#[test]
fn an_entry_has_24_bytes_and_bit_b_of_byte_j_names_lexicon_8j_and_b() {
    let mut entry = entry(&[5, 7, 9], true, &[0, 9, 63]);
    entry.gloss = 258;
    let mut record = vec![3, 5, 7, 9, 0, 0, 0, 0, 0, 0, 0, 0, 0, 1, 2, 1];
    record.extend([1, 2, 0, 0, 0, 0, 0, 128]);
    assert_eq!(entry.record(2), record);
    let mut draft = plain(&[LL], vec![Vec::new(); 64]);
    for lexicon in 0..64 {
        draft.lexicons[0] = vec![self::entry(&[L], false, &[lexicon])];
        let image = draft.image();
        let bits = &image[4 * 512 + 4 + 16..][..8];
        let number = u64::from_le_bytes(bits.try_into().unwrap());
        assert_eq!(number, 1 << lexicon);
        let grammar = read(&image).ok().unwrap();
        assert_eq!(grammar.entries[0].lexicons, [lexicon]);
        assert!(!grammar.entries[0].ends);
    }
}

#[test]
fn luz_without_its_empty_entry() {
    let draft = luz_2();
    assert_rows(&draft, &[5, 7, 8], &[(&[0], &[3, 5, 7])]);
    assert_rows(&draft, &[5, 7, 3], &[(&[1], &[3, 5, 1])]);
    let luces: [(&[u16], &[u8]); 2] = [
        (&[0, 2], &[3, 5, 6, 0, 2, 4]),
        (&[1, 2], &[3, 5, 1, 0, 2, 4]),
    ];
    assert_rows(&draft, &[5, 7, 3, 4, 6], &luces);
    assert_rows(&draft, &[5, 7, 8, 4, 6], &[]);
    let readings = analyse(&known(&draft), &[5, 7, 3, 4, 6]).unwrap();
    assert_eq!(list(&readings, &mut [0; 2 * ROW]), 9);
    let mut one = vec![7; 2 * ROW - 1];
    assert_eq!(list(&readings, &mut one), 4 + 2);
    assert_eq!(one[..ROW], row(&readings[0]));
    assert!(one[ROW..].iter().all(|&byte| byte == 7));
}

#[test]
fn the_ending_is_a_step() {
    let draft = luz_2();
    let grammar = known(&draft).ok().unwrap();
    let steps = |path: &[u16], pairing: &[u8]| {
        let (path, pairing) = (path.to_vec(), pairing.to_vec());
        grammar.steps(&Reading { path, pairing })
    };
    assert_eq!(steps(&[0], &[3, 5, 7]), [0, 3, 5, 7, ENDING]);
    let luces = [0, 3, 5, 6, 2, 0, 2, 4, ENDING];
    assert_eq!(steps(&[0, 2], &[3, 5, 6, 0, 2, 4]), luces);
    // Ahead of insertions, and directly after an empty last form.
    let draft = plain(
        &[LL, COME],
        vec![vec![entry(&[L], true, &[0]), entry(&[], true, &[])]],
    );
    let grammar = known(&draft).ok().unwrap();
    let steps = |path: &[u16], pairing: &[u8]| {
        let (path, pairing) = (path.to_vec(), pairing.to_vec());
        grammar.steps(&Reading { path, pairing })
    };
    assert_eq!(steps(&[0], &[0, 1, 1]), [0, 0, ENDING, 1, 1]);
    assert_eq!(steps(&[0], &[1, 0]), [0, 1, 0, ENDING]);
    assert_eq!(steps(&[0, 1], &[0, 1]), [0, 0, 1, ENDING, 1]);
    assert_eq!(steps(&[1], &[1]), [1, ENDING, 1]);
}

#[test]
fn an_ending_comes_before_every_entry_and_insertion() {
    // By document 01's step lists 0 1 would come first.
    let lexicons = vec![vec![entry(&[L], true, &[1])], vec![entry(&[], true, &[])]];
    let draft = plain(&[LL, XX, COME], lexicons);
    assert_rows(&draft, &[L, X], &[(&[0], &[0, 2]), (&[0, 1], &[0, 2])]);
    assert_rows(&draft, &[L], &[(&[0], &[0]), (&[0, 1], &[0])]);
    let grammar = known(&draft).ok().unwrap();
    let readings = analyse(&known(&draft), &[L, X]).unwrap();
    let plain: Vec<_> = readings
        .iter()
        .map(|r| grammar.steps_by(r, false))
        .collect();
    assert!(plain[0] > plain[1]);
}

#[test]
fn several_lexicons_are_gone_through_in_order() {
    let lexicons = vec![
        vec![entry(&[L], false, &[1, 2])],
        vec![entry(&[], true, &[]), entry(&[X], true, &[])],
        vec![entry(&[X], true, &[])],
    ];
    let draft = plain(&[LL, XX], lexicons);
    let both: [(&[u16], &[u8]); 2] = [(&[0, 2], &[0, 1]), (&[0, 3], &[0, 1])];
    assert_rows(&draft, &[L, X], &both);
    assert_rows(&draft, &[L], &[(&[0, 1], &[0])]);
    let path = |path: &[u16]| generate(&known(&draft), &bytes(path)).map(|rows| rows.len());
    assert_eq!(path(&[0]), Err(Stop::Refused(12)));
    assert_eq!(path(&[0, 1]), Ok(1));
    assert_eq!(path(&[0, 3]), Ok(1));
    assert_eq!(path(&[1]), Err(Stop::Refused(12)));
    assert_eq!(path(&[0, 1, 1]), Err(Stop::Refused(12)));
    assert_eq!(path(&[0, 4]), Err(Stop::Refused(12)));
}

#[test]
fn a_circle_that_may_end_has_a_path_of_sixteen() {
    let draft = plain(&[LL], vec![vec![entry(&[L], true, &[0])]]);
    for length in 1..=16 {
        assert_rows(
            &draft,
            &vec![L; length],
            &[(&vec![0; length], &vec![0; length])],
        );
    }
    assert_rows(&draft, &[L; 17], &[]);
    assert!(generate(&known(&draft), &bytes(&[0; 16])).is_ok());
    assert_eq!(
        generate(&known(&draft), &bytes(&[0; 17])),
        Err(Stop::Refused(11))
    );
}

#[test]
fn one_letter_in_a_circle_of_empty_entries_has_136_readings() {
    let lexicons = vec![vec![entry(&[], true, &[0]), entry(&[L], true, &[0])]];
    let found = rows(&plain(&[LL], lexicons), &[L]);
    assert_eq!(found.len(), 136);
    let path = |zeros: usize, rest: &[u16]| [&vec![0; zeros][..], rest].concat();
    assert_eq!(found[0].0, path(15, &[1]));
    assert_eq!(found[1].0, path(14, &[1]));
    assert_eq!(found[2].0, path(14, &[1, 0]));
    assert_eq!(found[135].0, path(0, &[&[1][..], &[0; 15]].concat()));
}

#[test]
fn the_ninth_lexicon_is_bit_0_of_byte_1() {
    let mut lexicons = vec![vec![entry(&[L], false, &[8])]];
    lexicons.extend(vec![vec![entry(&[X], true, &[])]; 7]);
    lexicons.push(vec![entry(&[L], true, &[])]);
    let draft = plain(&[LL, XX], lexicons);
    assert_rows(&draft, &[L, L], &[(&[0, 8], &[0, 0])]);
    assert_rows(&draft, &[L, X], &[]);
}

#[test]
fn a_lexicon_may_be_empty() {
    let marked = plain(&[LL], vec![vec![entry(&[L], true, &[1])], Vec::new()]);
    assert_rows(&marked, &[L], &[(&[0], &[0])]);
    let unmarked = plain(&[LL], vec![vec![entry(&[L], false, &[1])], Vec::new()]);
    assert_rows(&unmarked, &[L], &[]);
}

#[test]
fn the_judge_asks_for_a_path_that_may_stop() {
    let known = known(&luz_2());
    let judged = |path: &[u16], pairing: &[u8]| judge(&known, &bytes(path), pairing);
    assert_eq!(judged(&[0], &[3, 5, 7]), Ok(true));
    assert_eq!(judged(&[0], &[3, 5, 6]), Ok(false));
    assert_eq!(judged(&[0, 2], &[3, 5, 6, 0, 2, 4]), Ok(true));
    assert_eq!(judged(&[2], &[0, 2, 4]), Err(12));
    assert_eq!(judged(&[0, 1], &[3, 5, 7]), Err(12));
    assert_eq!(judged(&[0, 2, 2], &[3, 5, 7]), Err(12));
    assert_eq!(judged(&[3], &[3, 5, 7]), Err(12));
    assert_eq!(generate(&known, &bytes(&[2])), Err(Stop::Refused(12)));
}

#[test]
fn view_spelling_and_many_words_take_form_2() {
    let known = known(&luz_2());
    assert_eq!(form(&known, 2), Ok(&[2, 4, 6][..]));
    assert_eq!(form(&known, 3), Err(12));
    let points: Vec<u8> = "Luz".encode_utf16().flat_map(u16::to_le_bytes).collect();
    assert_eq!(spell(&known, &points), Ok(vec![5, 7, 8]));
    let mut words = vec![255; 66];
    words[..4].copy_from_slice(&[3, 5, 7, 8]);
    words[33..39].copy_from_slice(&[5, 5, 7, 3, 4, 6]);
    let mut replies = [0; 16];
    let mut buffer = [0; 4 * ROW];
    assert_eq!(
        words_reply(&known, &words, &mut replies, &mut buffer),
        Ok(9)
    );
    assert_eq!((replies[0], replies[8]), (5, 9));
    assert_eq!(check_reply(&known), 1);
}

#[test]
fn ways_out_of_range_are_refused_by_8() {
    let draft = luz_2();
    // Byte 13 is the mark of entry 0, byte 16 has the bits of lexicons 0 to 7; X is 2.
    for mark in 2..=255 {
        assert_eq!(damaged(&draft, 13, mark), 8);
    }
    assert_eq!(damaged(&draft, 13, 0), 0);
    assert_eq!(damaged(&draft, 16, 3), 0);
    for lexicon in 2..64 {
        assert_eq!(damaged(&draft, 16 + lexicon / 8, 1 << (lexicon % 8)), 8);
    }
    // The last entry has no bit: without its mark it has no way on.
    assert_eq!(damaged(&draft, 2 * 24 + 13, 0), 8);
    // With a bit for every lexicon there are no others.
    let mut draft = plain(&[LL], vec![Vec::new(); 64]);
    draft.lexicons[0] = vec![entry(&[L], false, &(0..64).collect::<Vec<u8>>())];
    assert_eq!(refusal(&draft.image()), 0);
    draft.lexicons.pop();
    assert_eq!(refusal(&draft.image()), 8);
}

#[test]
fn lengths_letters_and_zeros_are_tested_as_in_form_1() {
    let draft = luz_2();
    assert_eq!(damaged(&draft, 0, 13), 8);
    assert_eq!(damaged(&draft, 0, 2), 8);
    assert_eq!(damaged(&draft, 1, 1), 8);
    assert_eq!(damaged(&draft, 1, 10), 8);
    assert_eq!(damaged(&draft, 4, 2), 8);
    assert_eq!(damaged(&draft, 14, 255), 0);
    assert_eq!(damaged(&draft, 1, 8), 14);
    // An unused block byte after the last entry.
    assert_eq!(damaged(&draft, 3 * 24, 1), 3);
    assert_eq!(damaged(&draft, 505, 1), 3);
}

#[test]
fn other_forms_are_refused_by_3() {
    for form in [0, 3, 4, 256, 257, 258, 513, 514, 65_535] {
        for mut image in [Draft::luz().image(), luz_2().image()] {
            image[4..6].copy_from_slice(&u16::to_le_bytes(form));
            seal(&mut image).unwrap();
            assert_eq!(refusal(&image), 3, "{form}");
        }
    }
}

#[test]
fn an_image_that_names_the_other_form_is_refused() {
    // The blocks are as many, and of an entry's bytes some are taken for bits of lexicons that there are not.
    let mut image = Draft::luz().image();
    image[4] = 2;
    seal(&mut image).unwrap();
    assert_eq!(refusal(&image), 8);
    // Form 1 has no record where the last ones are.
    let mut draft = Draft::luz();
    draft.image_form = 2;
    let mut image = draft.image();
    image[4] = 1;
    seal(&mut image).unwrap();
    assert_eq!(refusal(&image), 3);
}

#[test]
fn a_block_holds_21_entries() {
    for (count, blocks) in [(1, 5), (21, 5), (22, 6), (42, 6), (43, 7)] {
        let draft = plain(&[LL], vec![vec![entry(&[L], true, &[]); count]]);
        let image = draft.image();
        assert_eq!(image.len(), blocks * 512);
        assert_eq!(refusal(&image), 0);
        assert_eq!(rows(&draft, &[L]).len(), count);
    }
}

#[test]
fn the_blocks_end_at_2604_entries() {
    let drafted = |count| plain(&[LL], vec![Vec::new(), vec![entry(&[L], true, &[]); count]]);
    let mut most = drafted(2_603);
    most.lexicons[0] = vec![entry(&[L], true, &[1])];
    let image = most.image();
    assert_eq!(image.len(), 65_536);
    assert_eq!(refusal(&image), 0);
    assert_eq!(rows(&most, &[L, L]).len(), 2_603);
    assert_eq!(refusal(&drafted(2_605).image()), 1);
    // E is told apart from the block total by its own limit.
    let mut image = drafted(21).image();
    for entries in [0, 22, 2_800, 2_801] {
        image[14..16].copy_from_slice(&u16::to_le_bytes(entries));
        seal(&mut image).unwrap();
        assert_eq!(refusal(&image), 3);
    }
}

#[test]
fn refusals_of_the_image_come_first() {
    let mut draft = luz_2();
    draft.lexicons[0][0].form[2] = 8;
    let known = known(&draft);
    assert_eq!(check_reply(&known), refused(14));
    assert_eq!(analyse(&known, &[]), Err(Stop::Refused(14)));
    assert_eq!(generate(&known, &[]), Err(Stop::Refused(14)));
    assert_eq!(judge(&known, &[], &[]), Err(14));
}
