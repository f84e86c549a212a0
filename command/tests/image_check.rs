//! The check that the other tests lean on refuses the small example of each of document 01's refusals, and what document 02
//! refuses of sets and of form 2.

mod support;

use support::check::{refusal, seal};
use support::{assembled, edited, sample};

const BLOCK: usize = 512;

fn luz() -> Vec<u8> {
    assembled(&sample("luz")).unwrap()
}

/// luz with one byte set and the blocks sealed again.
fn altered(block: usize, byte: usize, value: u8) -> Vec<u8> {
    with(luz(), block, byte, value)
}

fn with(mut image: Vec<u8>, block: usize, byte: usize, value: u8) -> Vec<u8> {
    let place = &mut image[BLOCK * block + byte];
    assert_ne!(*place, value, "the alteration changes nothing");
    *place = value;
    seal(&mut image);
    image
}

/// luz with two sets, of which set 1 stands for e in its rule's fourth column.
fn luz_with_sets() -> Vec<u8> {
    let text = sample("luz").replace("PAIRS ", "SUBSET Low c u\nSUBSET Front e\nPAIRS ");
    assembled(&text.replace("     Z Z + e @\n", "     Z Z + Front @\n")).unwrap()
}

#[test]
fn luz_is_accepted() {
    assert_eq!(refusal(&luz()), None);
}

#[test]
fn a_length_that_is_no_multiple_of_512_is_refused_with_1() {
    let image = luz();
    assert_eq!(refusal(&[]), Some(1));
    assert_eq!(refusal(&image[..511]), Some(1));
    assert_eq!(refusal(&vec![0; 65_536 + BLOCK]), Some(1));
}

#[test]
fn a_wrong_check_or_block_number_is_refused_with_2() {
    let mut check = luz();
    check[7] ^= 1;
    assert_eq!(refusal(&check), Some(2));
    let mut number = luz();
    number[BLOCK] = 2;
    assert_eq!(refusal(&number), Some(2));
}

#[test]
fn a_wrong_layout_is_refused_with_3() {
    for form in [0, 3, 255] {
        assert_eq!(refusal(&altered(0, 4, form)), Some(3), "form {form}");
    }
    assert_eq!(refusal(&altered(0, 5, 1)), Some(3), "form 257");
    assert_eq!(refusal(&altered(0, 6, 1)), Some(3), "L = 1");
    assert_eq!(refusal(&altered(1, 2, 3)), Some(3), "a kind");
    assert_eq!(refusal(&altered(1, 3, 8)), Some(3), "a record count");
    assert_eq!(refusal(&altered(5, 509, 1)), Some(3), "an unused byte");
    assert_eq!(refusal(&altered(0, 18, 1)), Some(3), "an unused byte after the sixth count");
}

#[test]
fn a_wrong_layout_of_sets_is_refused_with_3() {
    let image = luz_with_sets();
    let altered = |block, byte, value| refusal(&with(image.clone(), block, byte, value));
    assert_eq!(refusal(&image), None);
    assert_eq!(altered(0, 16, 32), Some(3), "N = 32");
    assert_eq!(altered(0, 17, 1), Some(3), "N = 258");
    assert_eq!(altered(0, 16, 0), Some(3), "a block of sets where N is 0");
    assert_eq!(altered(0, 16, 1), Some(3), "a record count other than N");
    assert_eq!(altered(3, 3, 1), Some(3), "N other than the record count");
    assert_eq!(altered(3, 2, 6), Some(3), "a kind");
    assert_eq!(altered(3, 4 + 2 * 16, 1), Some(3), "a byte after the last set");
    assert_eq!(altered(3, 509, 1), Some(3), "the last byte before the check");
    assert_eq!(refusal(&with(luz(), 0, 16, 1)), Some(3), "no block of sets where N is 1");
    let mut behind = image.clone();
    behind[3 * BLOCK..5 * BLOCK].rotate_left(BLOCK);
    seal(&mut behind);
    assert_eq!(refusal(&behind), Some(3), "sets after the rule");
    let mut twice = image.clone();
    twice.splice(3 * BLOCK..3 * BLOCK, image[3 * BLOCK..4 * BLOCK].to_vec());
    seal(&mut twice);
    assert_eq!(refusal(&twice), Some(3), "two blocks of sets");
}

#[test]
fn a_wrong_code_point_is_refused_with_4() {
    assert_eq!(refusal(&altered(1, 4, 0)), Some(4), "0");
    assert_eq!(refusal(&altered(1, 6, 99)), Some(4), "letters 2 and 3 both 99");
    assert_eq!(refusal(&altered(1, 5, 0xd8)), Some(4), "a surrogate");
}

#[test]
fn a_wrong_pair_is_refused_with_5() {
    assert_eq!(refusal(&altered(2, 4, 0)), Some(5), "0:0");
    assert_eq!(refusal(&altered(2, 4, 1)), Some(5), "the boundary");
    assert_eq!(refusal(&altered(2, 4, 10)), Some(5), "a letter over L");
    let mut twice = luz();
    twice.copy_within(2 * BLOCK + 4..2 * BLOCK + 6, 2 * BLOCK + 6);
    seal(&mut twice);
    assert_eq!(refusal(&twice), Some(5), "a pair twice");
}

#[test]
fn a_wrong_table_is_refused_with_6() {
    assert_eq!(refusal(&altered(3, 4, 0)), Some(6), "C = 0");
    assert_eq!(refusal(&altered(3, 5, 25)), Some(6), "S = 25");
    assert_eq!(refusal(&altered(3, 6, 10)), Some(6), "a side over L");
    assert_eq!(refusal(&altered(3, 16, 2)), Some(6), "a mark");
    assert_eq!(refusal(&altered(3, 21, 6)), Some(6), "a next state over S");
    assert_eq!(refusal(&altered(3, 509, 1)), Some(6), "a byte after the last row");
}

#[test]
fn a_wrong_set_or_side_is_refused_with_6() {
    let image = luz_with_sets();
    let altered = |block, byte, value| refusal(&with(image.clone(), block, byte, value));
    // Letter 9 is the last: bit 1 of byte 1.
    assert_eq!(altered(3, 5, 2), None, "letter 9");
    assert_eq!(altered(3, 5, 4), Some(6), "letter 10");
    assert_eq!(altered(3, 5 + 16, 4), Some(6), "letter 10 in the last set");
    assert_eq!(altered(3, 4 + 15, 128), Some(6), "letter 127");
    assert_eq!(altered(3, 4, 3), None, "the null and the boundary");
    // The fourth column's lexical side.
    assert_eq!(image[4 * BLOCK + 12], 129);
    for side in [10, 120, 121, 127, 130, 158, 159, 254] {
        assert_eq!(altered(4, 12, side), Some(6), "side {side}");
    }
    assert_eq!(altered(4, 12, 128), None, "set 0");
    assert_eq!(altered(4, 12, 4), None, "e");
    assert_eq!(refusal(&with(luz(), 3, 12, 128)), Some(6), "a set where there is none");
}

#[test]
fn a_set_without_letters_matches_nothing() {
    let none = with(luz_with_sets(), 3, 4 + 16, 0);
    assert_eq!(refusal(&none), None, "e:e takes @:@");
    // The last column's lexical side.
    assert_eq!(refusal(&with(none, 4, 14, 129)), Some(7), "no column for c:c");
}

#[test]
fn two_sets_that_are_equally_narrow_are_refused_with_7() {
    let mut tie = luz_with_sets();
    // Z:c and Z:z become Low:@ and Front:@, and Front has c and e where Low has c and u.
    tie[4 * BLOCK + 6..4 * BLOCK + 10].copy_from_slice(&[128, 255, 129, 255]);
    tie[3 * BLOCK + 4 + 16] = 1 << 3 | 1 << 4;
    seal(&mut tie);
    assert_eq!(refusal(&tie), Some(7), "c:c");
    assert_eq!(refusal(&with(tie, 3, 4 + 16, 1 << 3)), None, "Front has c alone");
}

#[test]
fn a_pair_without_one_narrowest_column_is_refused_with_7() {
    assert_eq!(refusal(&altered(3, 14, 2)), Some(7), "no column for c:c");
    let mut tie = altered(3, 7, 255);
    tie[3 * BLOCK + 9] = 255;
    seal(&mut tie);
    assert_eq!(refusal(&tie), Some(7), "Z:@ twice");
}

#[test]
fn a_wrong_lexicon_is_refused_with_8() {
    assert_eq!(refusal(&altered(4, 4, 3)), Some(8), "lexicon counts");
    assert_eq!(refusal(&altered(5, 4, 13)), Some(8), "form length 13");
    assert_eq!(refusal(&altered(5, 5, 1)), Some(8), "the boundary in a form");
    assert_eq!(refusal(&altered(5, 8, 5)), Some(8), "a letter past the length");
    assert_eq!(refusal(&altered(5, 17, 2)), Some(8), "no such lexicon");
}

/// luz in form 2, where luZ and luc may end: block 5 has its entries.
fn luz_two() -> Vec<u8> {
    assembled(&sample("luz").replace("  Number  ", "  # Number  ")).unwrap()
}

#[test]
fn a_wrong_layout_of_form_2_is_refused_with_3() {
    assert_eq!(refusal(&luz_two()), None);
    assert_eq!(refusal(&with(luz_two(), 0, 4, 1)), Some(3), "form 2 called form 1");
    assert_eq!(refusal(&with(luz_two(), 5, 4 + 4 * 24, 1)), Some(3), "a byte after the last entry");
    assert_eq!(refusal(&with(luz_two(), 5, 509, 1)), Some(3), "the last byte before the check");
    // 21 entries fill a block.
    let many = |count: usize| {
        let text = sample("luz").replace("  Number  ", "  # Number  ");
        assembled(&edited(&text, "  +es  #       \"plural\"\n", &"  +es  #\n".repeat(count))).unwrap()
    };
    let (full, over) = (many(18), many(19));
    assert_eq!((refusal(&full), full.len()), (None, 6 * BLOCK));
    assert_eq!((refusal(&over), over.len()), (None, 7 * BLOCK));
    assert_eq!((full[5 * BLOCK + 3], over[5 * BLOCK + 3], over[6 * BLOCK + 3]), (21, 21, 1));
}

#[test]
fn a_wrong_entry_of_form_2_is_refused_with_8() {
    let altered = |byte, value| refusal(&with(luz_two(), 5, byte, value));
    // Entry 0: length 4, letters 5 to 16, mark 17, gloss 18 and 19, bits 20 to 27.
    assert_eq!(altered(17, 2), Some(8), "mark 2");
    assert_eq!(altered(17, 255), Some(8), "form 1's end");
    assert_eq!(altered(17, 0), None, "without the mark");
    assert_eq!(altered(20, 0), None, "without the bit");
    assert_eq!(altered(20, 1), None, "back to its own lexicon");
    assert_eq!(altered(20, 4), Some(8), "lexicon 2, the first that is missing");
    assert_eq!(altered(27, 128), Some(8), "lexicon 63");
    assert_eq!(refusal(&with(with(luz_two(), 5, 17, 0), 5, 20, 0)), Some(8), "neither mark nor bit");
    assert_eq!(refusal(&altered_form()), Some(8), "form 1 called form 2");
    assert_eq!(altered(7, 8), Some(14), "z for the Z of luZ");
}

fn altered_form() -> Vec<u8> {
    altered(0, 4, 2)
}

#[test]
fn a_form_letter_that_is_no_lexical_side_is_refused_with_14() {
    assert_eq!(refusal(&altered(5, 7, 8)), Some(14), "z for the Z of luZ");
    assert_eq!(refusal(&altered(5, 55, 8)), Some(14), "z for the last letter of the last entry");
    assert_eq!(refusal(&altered(2, 10, 0)), Some(14), "0:l for l:l");
    assert_eq!(refusal(&altered(2, 10, 9)), Some(14), "Z:l for l:l");
    assert_eq!(refusal(&altered(2, 11, 0)), None, "l:0 for l:l");
}

#[test]
fn an_entry_s_layout_is_tested_before_its_letters() {
    let mut both = altered(5, 7, 8);
    both[5 * BLOCK + 4 + 3 * 16] = 13;
    seal(&mut both);
    assert_eq!(refusal(&both), Some(8), "z in the first entry, length 13 in the last");
}
