//! The document's own trials, refusals and traps hold of the second engine.

use other_engine::calls::{self, analyse, form, form_reply, generate, judge, judge_reply, Known};
use other_engine::draft::{Draft, DraftEntry, DraftTable};
use other_engine::image::{block_check, read, seal};
use other_engine::listing::{list, refused, row, ROW};
use other_engine::{Reading, Stop};

fn luz() -> Known {
    read(&Draft::luz().image())
}

fn reading(path: &[u16], pairing: &[u8]) -> Reading {
    Reading {
        path: path.to_vec(),
        pairing: pairing.to_vec(),
    }
}

fn bytes(path: &[u16]) -> Vec<u8> {
    path.iter().flat_map(|e| e.to_le_bytes()).collect()
}

fn entry(form: &[u8], continuation: u8) -> DraftEntry {
    DraftEntry::with_one_way(form.to_vec(), continuation, 0)
}

/// A grammar without rules over letters with code points 97, 98, ...
fn plain(letters: u16, pairs: &[(u8, u8)], lexicons: Vec<Vec<DraftEntry>>) -> Draft {
    Draft {
        image_form: 1,
        letters: (97..97 + letters).collect(),
        pairs: pairs.to_vec(),
        sets: Vec::new(),
        tables: Vec::new(),
        lexicons,
    }
}

const LUZ: [u8; 3] = [5, 7, 8];
const LUC: [u8; 3] = [5, 7, 3];
const LUCES: [u8; 5] = [5, 7, 3, 4, 6];
const LUZES: [u8; 5] = [5, 7, 8, 4, 6];

fn luces_readings() -> Vec<Reading> {
    vec![
        reading(&[0, 3], &[3, 5, 6, 0, 2, 4]),
        reading(&[1, 3], &[3, 5, 1, 0, 2, 4]),
    ]
}

#[test]
fn luz_has_one_reading_with_its_steps() {
    let known = luz();
    let readings = analyse(&known, &LUZ).unwrap();
    assert_eq!(readings, [reading(&[0, 2], &[3, 5, 7])]);
    let grammar = known.as_ref().ok().unwrap();
    assert_eq!(grammar.steps(&readings[0]), [0, 3, 5, 7, 2]);
}

#[test]
fn luces_has_two_readings_in_order_and_replies_nine() {
    let known = luz();
    let readings = analyse(&known, &LUCES).unwrap();
    assert_eq!(readings, luces_readings());
    let grammar = known.as_ref().ok().unwrap();
    assert_eq!(grammar.steps(&readings[0]), [0, 3, 5, 6, 3, 0, 2, 4]);
    assert_eq!(grammar.steps(&readings[1]), [1, 3, 5, 1, 3, 0, 2, 4]);
    let mut rows = vec![7; 3 * ROW + 5];
    assert_eq!(list(&readings, &mut rows), 9);
    assert_eq!(rows[..ROW], row(&readings[0]));
    assert_eq!(rows[ROW..2 * ROW], row(&readings[1]));
    assert!(rows[2 * ROW..].iter().all(|&b| b == 7));
}

#[test]
fn a_row_is_fifty_eight_numbers() {
    let bytes = row(&reading(&[0, 3], &[3, 5, 6, 0, 2, 4]));
    let numbers: Vec<u16> = bytes
        .chunks(2)
        .map(|two| u16::from_le_bytes([two[0], two[1]]))
        .collect();
    let mut expected = vec![2, 0, 3];
    expected.extend([65_535; 14]);
    expected.extend([6, 3, 5, 6, 0, 2, 4]);
    expected.extend([65_535; 34]);
    assert_eq!(numbers, expected);
}

#[test]
fn luces_with_one_row_lent_is_more_one() {
    let readings = analyse(&luz(), &LUCES).unwrap();
    for extra in [0, 1, 115] {
        let mut rows = vec![7; ROW + extra];
        assert_eq!(list(&readings, &mut rows), 4 + 2);
        assert_eq!(rows[..ROW], row(&luces_readings()[0]));
        assert!(rows[ROW..].iter().all(|&b| b == 7));
    }
}

#[test]
fn without_a_row_readings_are_more_zero() {
    let readings = analyse(&luz(), &LUCES).unwrap();
    for length in [0, 1, 115] {
        let mut rows = vec![7; length];
        assert_eq!(list(&readings, &mut rows), 2);
        assert!(rows.iter().all(|&b| b == 7));
    }
    assert_eq!(list(&[], &mut []), 0);
}

#[test]
fn a_buffer_just_filled_is_all() {
    let readings = analyse(&luz(), &LUCES).unwrap();
    assert_eq!(list(&readings, &mut vec![0; 2 * ROW]), 9);
    assert_eq!(list(&readings, &mut vec![0; 2 * ROW - 1]), 6);
}

#[test]
fn luzes_has_none_and_luc_path_one_two_only() {
    assert_eq!(analyse(&luz(), &LUZES).unwrap(), []);
    assert_eq!(
        analyse(&luz(), &LUC).unwrap(),
        [reading(&[1, 2], &[3, 5, 1])]
    );
}

#[test]
fn path_nought_three_generates_luces_alone() {
    let known = luz();
    let readings = generate(&known, &bytes(&[0, 3])).unwrap();
    assert_eq!(readings, [luces_readings()[0].clone()]);
    assert_eq!(
        known.as_ref().ok().unwrap().spelled(&readings[0].pairing),
        LUCES
    );
}

#[test]
fn every_luz_path_generates_what_analysis_finds() {
    let known = luz();
    let grammar = known.as_ref().ok().unwrap();
    for path in [[0, 2], [0, 3], [1, 2], [1, 3]] {
        for reading in generate(&known, &bytes(&path)).unwrap() {
            let word = grammar.spelled(&reading.pairing);
            assert!(analyse(&known, &word).unwrap().contains(&reading));
            assert_eq!(
                judge(&known, &bytes(&reading.path), &reading.pairing),
                Ok(true)
            );
        }
    }
}

#[test]
fn checks_are_the_documents() {
    assert_eq!(block_check(&[0; 512]), 1);
    let mut block = [0; 512];
    block[509] = 255;
    assert_eq!(block_check(&block), 64_530);
    assert_eq!(block_check(&[255; 512]), 8_629);
}

#[test]
fn sealing_writes_number_and_check_and_nothing_else() {
    let mut image = vec![200; 3 * 512];
    assert_eq!(seal(&mut image), Ok(()));
    for (number, block) in image.chunks(512).enumerate() {
        assert_eq!(block[..2], [number as u8, 0]);
        assert!(block[2..510].iter().all(|&b| b == 200));
        assert_eq!(block[510..], block_check(block).to_le_bytes());
    }
    for length in [0, 511, 513, 65_537, 66_048] {
        let mut image = vec![9; length];
        assert_eq!(calls::seal_reply(&mut image), 7);
        assert!(image.iter().all(|&b| b == 9));
    }
    assert_eq!(calls::seal_reply(&mut vec![9; 65_536]), 1);
}

#[test]
fn eight_plus_read_as_l_and_nine_do_not() {
    for (count, readings) in [(8, 1), (9, 0)] {
        let mut letters = vec![3];
        letters.extend(vec![2; count]);
        let known = read(&plain(3, &[(2, 0), (3, 3)], vec![vec![entry(&letters, 255)]]).image());
        assert_eq!(analyse(&known, &[3]).unwrap().len(), readings);
        assert_eq!(generate(&known, &bytes(&[0])).unwrap().len(), readings);
    }
}

#[test]
fn eight_insertions_are_read_and_nine_are_not() {
    let known = read(&plain(3, &[(0, 2), (3, 3)], vec![vec![entry(&[3], 255)]]).image());
    for (count, readings) in [(8, 1), (9, 0)] {
        let mut word = vec![3];
        word.extend(vec![2; count]);
        assert_eq!(analyse(&known, &word).unwrap().len(), readings);
    }
}

/// A chain of lexicons, each with one entry of one form, the last to end.
fn chain(lengths: &[usize]) -> Draft {
    let last = lengths.len() - 1;
    let lexicons = lengths
        .iter()
        .enumerate()
        .map(|(i, &n)| {
            vec![entry(
                &vec![2; n],
                if i == last { 255 } else { i as u8 + 1 },
            )]
        })
        .collect();
    plain(2, &[(2, 2)], lexicons)
}

#[test]
fn words_of_thirty_two_and_thirty_three_letters() {
    let known = read(&chain(&[12, 12, 8]).image());
    assert_eq!(analyse(&known, &[2; 32]).unwrap().len(), 1);
    assert_eq!(analyse(&known, &[2; 33]), Err(Stop::Refused(9)));
    assert_eq!(analyse(&known, &[2; 31]).unwrap().len(), 0);
    assert_eq!(generate(&known, &bytes(&[0, 1, 2])).unwrap().len(), 1);
    let known = read(&chain(&[12, 12, 9]).image());
    assert_eq!(generate(&known, &bytes(&[0, 1, 2])).unwrap().len(), 0);
    assert_eq!(judge(&known, &bytes(&[0, 1, 2]), &[0; 33]), Ok(false));
}

#[test]
fn paths_of_sixteen_and_seventeen_entries() {
    let path: Vec<u16> = (0..17).collect();
    let known = read(&chain(&[1; 16]).image());
    let readings = analyse(&known, &[2; 16]).unwrap();
    assert_eq!(readings, [reading(&path[..16], &[0; 16])]);
    assert_eq!(generate(&known, &bytes(&path[..16])).unwrap(), readings);
    assert_eq!(generate(&known, &bytes(&path)), Err(Stop::Refused(11)));
    let known = read(&chain(&[1; 17]).image());
    assert_eq!(analyse(&known, &[2; 17]).unwrap(), []);
    assert_eq!(generate(&known, &bytes(&path)), Err(Stop::Refused(11)));
    assert_eq!(
        generate(&known, &bytes(&path[..16])),
        Err(Stop::Refused(12))
    );
}

/// The t:c table with its columns put in this order, over t, c, i, s as letters 2 to 5.
fn t_c(order: [usize; 4]) -> Known {
    let columns = [(2, 3), (2, 255), (4, 255), (255, 255)];
    let rows = [[3, 2, 1, 1], [3, 2, 0, 1], [0, 0, 1, 0]];
    let mut draft = plain(
        5,
        &[(2, 3), (2, 2), (4, 4), (5, 5)],
        vec![vec![entry(&[2], 255)]],
    );
    draft.tables.push(DraftTable {
        columns: order.iter().map(|&c| columns[c]).collect(),
        finals: vec![1, 1, 0],
        rows: rows
            .iter()
            .map(|row| order.iter().map(|&c| row[c]).collect())
            .collect(),
    });
    read(&draft.image())
}

#[test]
fn the_t_c_table_has_its_four_facts_in_any_column_order() {
    let mut orders = 0;
    for a in 0..4 {
        for b in 0..4 {
            for c in 0..4 {
                for d in 0..4 {
                    let order = [a, b, c, d];
                    if (0..4).all(|x| order.contains(&x)) {
                        orders += 1;
                        let known = t_c(order);
                        let grammar = known.as_ref().ok().unwrap();
                        assert!(grammar.passes(&[0, 2]));
                        assert!(!grammar.passes(&[1, 2]));
                        assert!(!grammar.passes(&[0]));
                        assert!(grammar.passes(&[1]));
                    }
                }
            }
        }
    }
    assert_eq!(orders, 24);
}

/// Letters s and t, entries s and ts, and one rule with these columns and rows, every state final.
fn s_and_ts(columns: &[(u8, u8)], rows: &[&[u8]]) -> Known {
    let lexicons = vec![vec![entry(&[2], 255), entry(&[3, 2], 255)]];
    let mut draft = plain(3, &[(2, 2), (3, 3)], lexicons);
    draft.tables.push(DraftTable {
        columns: columns.to_vec(),
        finals: vec![1; rows.len()],
        rows: rows.iter().map(|row| row.to_vec()).collect(),
    });
    read(&draft.image())
}

#[test]
fn a_rule_may_forbid_s_directly_after_the_boundary() {
    let known = s_and_ts(&[(1, 1), (2, 2), (255, 255)], &[&[2, 1, 1], &[2, 0, 1]]);
    let grammar = known.as_ref().ok().unwrap();
    assert!(!grammar.passes(&[0]));
    assert!(grammar.passes(&[1, 0]));
    assert_eq!(analyse(&known, &[2]).unwrap(), []);
    assert_eq!(analyse(&known, &[3, 2]).unwrap(), [reading(&[1], &[1, 0])]);
    assert_eq!(generate(&known, &bytes(&[0])).unwrap(), []);
    assert_eq!(generate(&known, &bytes(&[1])).unwrap().len(), 1);
}

#[test]
fn a_rule_dead_at_the_front_leaves_no_reading_and_refuses_nothing() {
    let known = s_and_ts(&[(1, 1), (255, 255)], &[&[0, 2], &[2, 2]]);
    assert_eq!(calls::check_reply(&known), 1);
    assert_eq!(analyse(&known, &[3, 2]).unwrap(), []);
    assert_eq!(generate(&known, &bytes(&[1])).unwrap(), []);
    assert_eq!(judge(&known, &bytes(&[1]), &[1, 0]), Ok(false));
    // From state 2 on it would have let the word pass.
    let known = s_and_ts(&[(1, 1), (255, 255)], &[&[2, 2], &[2, 2]]);
    assert_eq!(judge(&known, &bytes(&[1]), &[1, 0]), Ok(true));
}

#[test]
fn equal_pairings_by_two_paths_are_two_readings() {
    let lexicons = vec![
        vec![entry(&[2], 255), entry(&[2], 255), entry(&[], 1)],
        vec![entry(&[2], 255)],
    ];
    let known = read(&plain(2, &[(2, 2)], lexicons).image());
    assert_eq!(
        analyse(&known, &[2]).unwrap(),
        [
            reading(&[0], &[0]),
            reading(&[1], &[0]),
            reading(&[2, 3], &[0])
        ]
    );
}

#[test]
fn an_insertion_at_a_boundary_is_listed_once_and_after_the_entry_opens() {
    let lexicons = vec![
        vec![entry(&[2], 1)],
        vec![entry(&[], 2)],
        vec![entry(&[2], 255)],
    ];
    let known = read(&plain(3, &[(0, 3), (2, 2)], lexicons).image());
    let readings = analyse(&known, &[2, 3, 2]).unwrap();
    assert_eq!(readings, [reading(&[0, 1, 2], &[1, 0, 1])]);
    assert_eq!(
        known.as_ref().ok().unwrap().steps(&readings[0]),
        [0, 1, 1, 2, 0, 1]
    );
    let readings = analyse(&known, &[3, 2, 2, 3]).unwrap();
    assert_eq!(
        known.as_ref().ok().unwrap().steps(&readings[0]),
        [0, 0, 1, 1, 2, 1, 0]
    );
}

#[test]
fn a_beginning_of_another_step_list_comes_first() {
    let known = read(&plain(3, &[(0, 3), (2, 2)], vec![vec![entry(&[2], 255)]]).image());
    let readings = generate(&known, &bytes(&[0])).unwrap();
    let after: Vec<_> = readings.iter().filter(|r| r.pairing[0] == 1).collect();
    assert_eq!(after.len(), 9);
    for (count, reading) in after.iter().enumerate() {
        assert_eq!(reading.pairing.len(), count + 1);
    }
    // n insertions before the letter and at most 8 - n after it, n from 0 to 8.
    assert_eq!(readings.len(), 45);
}

#[test]
fn the_judge_fails_a_word_of_no_letters() {
    let known = read(&plain(3, &[(2, 0), (3, 3)], vec![vec![entry(&[2], 255)]]).image());
    assert_eq!(judge(&known, &[0, 0], &[0]), Ok(false));
    assert_eq!(generate(&known, &[0, 0]).unwrap(), []);
}

#[test]
fn the_judge_replies_by_number() {
    let known = luz();
    assert_eq!(judge_reply(&known, &bytes(&[0, 3]), &[3, 5, 6, 0, 2, 4]), 1);
    assert_eq!(judge_reply(&known, &bytes(&[0, 3]), &[3, 5, 7, 0, 2, 4]), 0);
    assert_eq!(judge_reply(&known, &bytes(&[1, 3]), &[3, 5, 6, 0, 2, 4]), 0);
    assert_eq!(judge_reply(&known, &[], &[]), refused(11));
    assert_eq!(judge_reply(&known, &[0, 0, 3], &[]), refused(11));
    assert_eq!(judge_reply(&known, &bytes(&[3]), &[]), refused(12));
    assert_eq!(judge_reply(&known, &bytes(&[0, 3]), &[]), refused(13));
    assert_eq!(judge_reply(&known, &bytes(&[0, 3]), &[8]), refused(13));
    assert_eq!(judge_reply(&known, &bytes(&[0, 3]), &[0; 41]), refused(13));
    assert_eq!(judge_reply(&known, &bytes(&[0, 3]), &[0; 40]), 0);
}

#[test]
fn the_view_hands_back_a_form() {
    let known = luz();
    assert_eq!(form(&known, 3), Ok(&[2, 4, 6][..]));
    assert_eq!(form(&known, 2), Ok(&[][..]));
    assert_eq!(form(&known, 4), Err(12));
    let mut letters = [9; 5];
    assert_eq!(form_reply(&known, 0, &mut letters), 13);
    assert_eq!(letters, [5, 7, 9, 9, 9]);
    let mut letters = [1; 2];
    assert_eq!(form_reply(&known, 0, &mut letters), 14);
    assert_eq!(letters, [1; 2]);
    assert_eq!(form_reply(&known, 2, &mut []), 1);
    assert_eq!(form_reply(&known, 4, &mut letters), refused(12));
    assert_eq!(form_reply(&known, usize::MAX, &mut letters), refused(12));
}

#[test]
fn words_and_paths_are_refused_by_number() {
    let known = luz();
    assert_eq!(analyse(&known, &[]), Err(Stop::Refused(9)));
    assert_eq!(analyse(&known, &[1; 33]), Err(Stop::Refused(9)));
    for letter in [0, 1, 10, 255] {
        assert_eq!(analyse(&known, &[5, letter]), Err(Stop::Refused(10)));
    }
    assert_eq!(analyse(&known, &[9]), Ok(vec![]));
    for path in [&[][..], &[0], &[0; 33], &[0; 34]] {
        assert_eq!(generate(&known, path), Err(Stop::Refused(11)));
    }
    // A missing entry, a wrong start, an open end, an inner end, a lexicon not continued to.
    for path in [&[0, 4][..], &[2], &[0], &[0, 2, 2], &[0, 1]] {
        assert_eq!(generate(&known, &bytes(path)), Err(Stop::Refused(12)));
    }
}

/// The luz image with some bytes of one block changed and sealed again.
fn damaged(block: usize, changes: &[(usize, u8)]) -> Vec<u8> {
    let mut image = Draft::luz().image();
    for &(at, byte) in changes {
        image[block * 512 + at] = byte;
    }
    seal(&mut image).unwrap();
    image
}

fn refusal(image: &[u8]) -> u8 {
    read(image).err().unwrap_or(0)
}

#[test]
fn the_refusals_small_examples() {
    let luz = Draft::luz().image();
    assert_eq!(luz.len(), 6 * 512);
    assert_eq!(refusal(&luz), 0);
    assert_eq!(refusal(&luz[..511]), 1);
    assert_eq!(refusal(&[]), 1);
    assert_eq!(refusal(&vec![0; 65_537]), 1);
    assert_eq!(refusal(&vec![0; 65_536]), 2);
    let mut altered = luz.clone();
    altered[7] = 1;
    assert_eq!(refusal(&altered), 2);
    assert_eq!(refusal(&damaged(0, &[(6, 1)])), 3);
    assert_eq!(refusal(&damaged(1, &[(6, 99), (8, 99)])), 4);
    assert_eq!(refusal(&damaged(2, &[(4, 0), (5, 0)])), 5);
    // State 2 of five states is given the next state 6.
    assert_eq!(refusal(&damaged(3, &[(4 + 2 + 10 + 5 + 5, 6)])), 6);
    assert_eq!(refusal(&damaged(3, &[(4 + 2 + 8, 3), (4 + 2 + 9, 3)])), 7);
    assert_eq!(refusal(&damaged(5, &[(4, 13)])), 8);
    // The z of luz, which is only written, for the Z of luZ.
    assert_eq!(refusal(&damaged(5, &[(4 + 3, 8)])), 14);
}

/// The luz grammar with entry 0 typed luz.
fn slip() -> Draft {
    let mut draft = Draft::luz();
    draft.lexicons[0][0].form[2] = 8;
    draft
}

#[test]
fn a_typing_slip_is_refused_by_every_call_but_sealing() {
    let known = read(&slip().image());
    assert_eq!(calls::check_reply(&known), refused(14));
    // Words that luz reads, and words with no letter, a letter outside 2-L, or a letter too many.
    for word in [&LUZ[..], &LUC, &LUCES, &[], &[1], &[10], &[5; 33]] {
        assert_eq!(analyse(&known, word), Err(Stop::Refused(14)));
    }
    // Paths with and without the entry, unlinked ones, and ones of no length that a path has.
    let of_entries = [bytes(&[0, 2]), bytes(&[1, 2]), bytes(&[4]), bytes(&[0])];
    let of_bytes = [vec![], vec![0], vec![0; 34]];
    for path in of_entries.iter().chain(&of_bytes) {
        assert_eq!(generate(&known, path), Err(Stop::Refused(14)));
        for pairing in [&[3, 5, 1][..], &[3, 5, 7], &[], &[8], &[0; 41]] {
            assert_eq!(judge(&known, path, pairing), Err(14));
        }
    }
    for number in [0, 1, 2, 3, 4, usize::MAX] {
        let mut letters = [9; 5];
        assert_eq!(form(&known, number), Err(14));
        assert_eq!(form_reply(&known, number, &mut letters), refused(14));
        assert_eq!(letters, [9; 5]);
    }
    let mut image = slip().unsealed();
    assert_eq!(refusal(&image), 2);
    assert_eq!(calls::seal_reply(&mut image), 1);
    assert_eq!(refusal(&image), 14);
}

#[test]
fn only_a_lexical_side_spells_a_letter_of_a_form() {
    for (pairs, k) in [
        (&[(2, 2)][..], 14),
        (&[(2, 2), (2, 3)], 14),
        (&[(2, 2), (0, 3)], 14),
        (&[(0, 3)], 14),
        (&[(2, 3), (2, 2), (0, 3)], 14),
        (&[(3, 3)], 0),
        (&[(2, 2), (3, 2)], 0),
        (&[(2, 2), (3, 0)], 0),
        (&[(3, 0), (0, 3), (2, 3)], 0),
    ] {
        let draft = plain(3, pairs, vec![vec![entry(&[3], 255)]]);
        assert_eq!(refusal(&draft.image()), k, "{pairs:?}");
        let draft = plain(3, pairs, vec![vec![entry(&[], 255)]]);
        assert_eq!(refusal(&draft.image()), 0, "{pairs:?}");
    }
}

#[test]
fn one_letter_anywhere_is_enough_for_fourteen() {
    // Forms of every length, over three blocks of entries and round a lexicon without any.
    let of_lengths = |numbers: std::ops::Range<usize>| -> Vec<DraftEntry> {
        numbers.map(|n| entry(&vec![2; n % 13], 255)).collect()
    };
    let lexicons = vec![of_lengths(0..20), Vec::new(), of_lengths(20..64)];
    let good = plain(3, &[(2, 2), (2, 3)], lexicons);
    assert_eq!(refusal(&good.image()), 0);
    let mut twelfth = 0;
    for lexicon in [0, 2] {
        for number in 0..good.lexicons[lexicon].len() {
            for place in 0..good.lexicons[lexicon][number].form.len() {
                let mut draft = good.clone();
                draft.lexicons[lexicon][number].form[place] = 3;
                assert_eq!(refusal(&draft.image()), 14, "{lexicon} {number} {place}");
                twelfth += usize::from(place == 11);
            }
        }
    }
    assert_eq!(twelfth, 4);
    let last = good.entries().last().unwrap();
    assert_eq!(last.form.len(), 11);
}

/// A change that makes an image fail an earlier test as well.
type Spoiling = fn(&mut Draft);

#[test]
fn fourteen_is_tested_after_eight() {
    let spoilings: [(Spoiling, u8); 9] = [
        (|draft| draft.letters.truncate(1), 3),
        (|draft| draft.letters[8] = 0, 4),
        (|draft| draft.pairs[0] = (1, 1), 5),
        (|draft| draft.tables[0].rows[0][0] = 6, 6),
        (|draft| draft.tables[0].columns[4] = (8, 8), 7),
        // The entry of the slip, one after it, and the boundary and a letter past L in a form.
        (|draft| draft.lexicons[0][0].go_on_to(2), 8),
        (|draft| draft.lexicons[1][1].go_on_to(2), 8),
        (|draft| draft.lexicons[0][1].form[0] = 1, 8),
        (|draft| draft.lexicons[1][1].form[2] = 10, 8),
    ];
    for (spoil, k) in spoilings {
        let mut draft = slip();
        spoil(&mut draft);
        assert_eq!(refusal(&draft.image()), k);
    }
    // The lexicon counts add to more than E.
    let mut image = slip().image();
    image[4 * 512 + 4] += 1;
    seal(&mut image).unwrap();
    assert_eq!(refusal(&image), 8);
}

#[test]
fn two_states_and_next_state_three_are_refused_by_six() {
    let mut draft = plain(2, &[(2, 2)], vec![vec![entry(&[2], 255)]]);
    let table = |next| DraftTable {
        columns: vec![(255, 255)],
        finals: vec![1, 1],
        rows: vec![vec![2], vec![next]],
    };
    draft.tables = vec![table(2)];
    assert_eq!(refusal(&draft.image()), 0);
    draft.tables = vec![table(3)];
    assert_eq!(refusal(&draft.image()), 6);
}

#[test]
fn two_narrowest_columns_are_refused_by_seven() {
    let mut draft = plain(2, &[(2, 2)], vec![vec![entry(&[2], 255)]]);
    let table = |columns: &[(u8, u8)]| DraftTable {
        columns: columns.to_vec(),
        finals: vec![1],
        rows: vec![vec![1; columns.len()]],
    };
    for (columns, k) in [
        (&[(2, 255), (255, 2), (1, 1)][..], 7),
        (&[(2, 255), (1, 1)], 0),
        (&[(2, 255)], 7),
        (&[(1, 1)], 7),
        (&[(255, 255)], 0),
        (&[(255, 255), (255, 255)], 7),
        // Over the pair and the boundary together t:any matches one and any:any two.
        (&[(255, 255), (2, 255)], 0),
        (&[(255, 255), (1, 255), (255, 1)], 7),
        (&[(255, 255), (0, 0), (2, 1), (0, 2)], 0),
    ] {
        draft.tables = vec![table(columns)];
        assert_eq!(refusal(&draft.image()), k, "{columns:?}");
    }
}

#[test]
fn a_test_is_over_the_whole_image_before_the_next() {
    let mut draft = Draft::luz();
    let mut unmatched = draft.tables[0].clone();
    unmatched.columns[4] = (8, 8);
    let mut out_of_range = draft.tables[0].clone();
    out_of_range.rows[0][0] = 6;
    draft.tables = vec![unmatched, out_of_range];
    assert_eq!(refusal(&draft.image()), 6);
    draft.letters[8] = 0;
    draft.pairs[0] = (1, 1);
    assert_eq!(refusal(&draft.image()), 4);
}

#[test]
fn code_points_are_kept_off_the_surrogates() {
    for (point, k) in [
        (0, 4),
        (1, 0),
        (55_295, 0),
        (55_296, 4),
        (57_343, 4),
        (57_344, 0),
        (65_535, 0),
    ] {
        for letter in [0, 4, 8] {
            let mut draft = Draft::luz();
            draft.letters[letter] = point;
            assert_eq!(refusal(&draft.image()), k);
        }
    }
}

#[test]
fn a_check_past_the_modulus_is_wrong() {
    // The gloss number of entry 30 stands far enough back to move the check anywhere.
    let mut image = plain(2, &[(2, 2)], vec![vec![entry(&[2], 255); 31]]).image();
    let last = image.len() - 512;
    let found = (0..=65_535u16).find(|&gloss| {
        image[last + 498..last + 500].copy_from_slice(&gloss.to_le_bytes());
        block_check(&image[last..]) < 15
    });
    assert!(found.is_some());
    let check = block_check(&image[last..]);
    image[last + 510..].copy_from_slice(&check.to_le_bytes());
    assert_eq!(refusal(&image), 0);
    image[last + 510..].copy_from_slice(&(check + 65_521).to_le_bytes());
    assert_eq!(refusal(&image), 2);
}

#[test]
fn lexicon_counts_are_added_without_wrapping() {
    let image = damaged(4, &[(5, 128), (7, 128)]);
    assert_eq!(refusal(&image), 8);
}

#[test]
fn an_image_at_every_limit_is_accepted() {
    let mut letters: Vec<u16> = (1..=120).collect();
    let mut pairs: Vec<(u8, u8)> = (2..=120).map(|x| (x, x)).collect();
    pairs.extend((2..=120).map(|x| (x, 0)));
    pairs.extend((2..=13).map(|x| (0, x)));
    let table = DraftTable {
        columns: (2..=15)
            .map(|x| (x, x))
            .chain([(158, 158), (255, 255)])
            .collect(),
        finals: vec![1; 24],
        rows: vec![vec![24; 16]; 24],
    };
    let mut lexicons = vec![vec![entry(&[2; 12], 63); 43]; 64];
    lexicons[63].extend(vec![entry(&[], 255); 48]);
    letters.truncate(120);
    let draft = Draft {
        image_form: 1,
        letters,
        pairs,
        sets: vec![(16..=120).collect(); 31],
        tables: vec![table; 32],
        lexicons,
    };
    assert_eq!(draft.pairs.len(), 250);
    assert_eq!(draft.entries().count(), 2_800);
    let image = draft.image();
    assert_eq!(image.len(), 65_536);
    assert_eq!(refusal(&image), 0);
    // The columns that name a set are left without it.
    let without_sets = Draft {
        sets: Vec::new(),
        ..draft.clone()
    };
    assert_eq!(without_sets.image().len(), 127 * 512);
    assert_eq!(refusal(&without_sets.image()), 6);
    for past in 0..6 {
        let mut draft = draft.clone();
        match past {
            0 => draft.letters.push(121),
            1 => draft.pairs.push((0, 14)),
            2 => draft.lexicons.push(Vec::new()),
            3 => draft.lexicons[63].push(entry(&[], 255)),
            4 => draft.sets.push(Vec::new()),
            // With the sets this would be a block too many, and refused for its length.
            _ => {
                draft = without_sets.clone();
                draft.tables.push(draft.tables[0].clone());
            }
        }
        assert_eq!(refusal(&draft.image()), 3);
    }
}

#[test]
fn cycles_through_empty_entries_end_at_sixteen() {
    let lexicons = vec![vec![entry(&[], 0), entry(&[2], 255)]];
    let known = read(&plain(2, &[(2, 2)], lexicons).image());
    let readings = analyse(&known, &[2]).unwrap();
    assert_eq!(readings.len(), 16);
    // The deeper the path goes through entry 0 the earlier it stands.
    let lengths: Vec<usize> = readings.iter().map(|r| r.path.len()).collect();
    assert_eq!(lengths, (1..=16).rev().collect::<Vec<_>>());
}

/// Every sequence of numbers below a bound, of these lengths.
fn sequences(bound: u8, lengths: std::ops::RangeInclusive<usize>) -> Vec<Vec<u8>> {
    let mut found = Vec::new();
    let mut same_length = vec![Vec::new()];
    for length in 1..=*lengths.end() {
        same_length = same_length
            .iter()
            .flat_map(|beginning: &Vec<u8>| {
                (0..bound).map(|next| {
                    let mut longer = beginning.clone();
                    longer.push(next);
                    longer
                })
            })
            .collect();
        if lengths.contains(&length) {
            found.extend(same_length.clone());
        }
    }
    found
}

#[test]
fn analysis_lists_exactly_what_the_judge_holds() {
    // a+ or nothing, then a, nothing or +; no joined form is over three letters.
    let lexicons = vec![
        vec![entry(&[2, 3], 1), entry(&[], 1)],
        vec![entry(&[2], 255), entry(&[], 255), entry(&[3], 255)],
    ];
    let mut draft = plain(4, &[(2, 2), (0, 4), (3, 0), (2, 4)], lexicons);
    draft.tables.push(DraftTable {
        columns: vec![(0, 255), (255, 0), (2, 255), (255, 255)],
        finals: vec![1, 1, 0],
        rows: vec![vec![2, 1, 1, 1], vec![3, 1, 1, 2], vec![2, 0, 1, 1]],
    });
    let known = read(&draft.image());
    let grammar = known.as_ref().ok().unwrap();
    let mut held = Vec::new();
    for path in sequences(5, 1..=3) {
        let path: Vec<u16> = path.into_iter().map(u16::from).collect();
        for pairing in sequences(4, 1..=5) {
            if judge(&known, &bytes(&path), &pairing) == Ok(true) {
                held.push(reading(&path, &pairing));
            }
        }
    }
    held.sort_by_key(|reading| grammar.steps(reading));
    let mut met = 0;
    for word in sequences(5, 1..=3)
        .into_iter()
        .filter(|word| word.iter().all(|&y| y > 1))
    {
        let expected: Vec<Reading> = held
            .iter()
            .filter(|r| grammar.spelled(&r.pairing) == word)
            .cloned()
            .collect();
        assert_eq!(analyse(&known, &word).unwrap(), expected, "{word:?}");
        met += expected.len();
    }
    assert!(met > 50, "{met}");
}
