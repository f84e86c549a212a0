//! Texts with random slips are refused, or give an image that document 01's check accepts and that comes back from the text
//! it is written as; none makes the reader panic.

mod support;

use headwords_command::{
    list_entries, list_letters, list_pairs, list_sets, read_grammar, sealed_image, warnings, written,
};
use support::check::{counts, refusal};
use support::sample;

/// Numbers that look random and are the same in every run (xorshift).
struct Random(u64);

impl Random {
    fn below(&mut self, bound: usize) -> usize {
        self.0 ^= self.0 << 13;
        self.0 ^= self.0 >> 7;
        self.0 ^= self.0 << 17;
        (self.0 % bound as u64) as usize
    }
}

/// Pieces that a slip may put in: what the format gives a meaning, and what it does not expect.
const PIECES: [&str; 33] = [
    " ",
    "\n",
    "\t",
    "\"",
    ";",
    ":",
    ".",
    "0",
    "1",
    "25",
    "99999999999",
    "@",
    "#",
    "+",
    "a",
    "Z",
    "RULE",
    "END",
    "LEXICON",
    "PAIRS",
    "SUBSET",
    " CPos ",
    " # ",
    " Number ",
    " Noun ",
    "ALTERNATION",
    "\nALTERNATION A Number #\n",
    "\nFORM 2\n",
    "\nSUBSET V # 0 e\n",
    "\u{301}",
    "\u{10000}",
    "\u{feff}",
    "\r",
];

fn slip(bytes: &mut Vec<u8>, random: &mut Random) {
    let at = random.below(bytes.len() + 1);
    let end = (at + random.below(6)).min(bytes.len());
    match random.below(6) {
        0 => drop(bytes.drain(at..end)),
        1 => drop(bytes.splice(at..at, PIECES[random.below(PIECES.len())].bytes())),
        2 => drop(bytes.splice(at..end, PIECES[random.below(PIECES.len())].bytes())),
        3 => bytes.insert(at, random.below(256) as u8),
        4 => exchange_lines(bytes, random),
        _ => bytes.truncate(at.max(bytes.len() * 3 / 4)),
    }
}

fn exchange_lines(bytes: &mut Vec<u8>, random: &mut Random) {
    let mut lines: Vec<&[u8]> = bytes.split(|&byte| byte == b'\n').collect();
    let (one, other) = (random.below(lines.len()), random.below(lines.len()));
    lines.swap(one, other);
    *bytes = lines.join(&b'\n');
}

/// Reads a text with slips, and says whether it gave an image.
fn try_text(text: &[u8]) -> bool {
    match read_grammar(text) {
        Ok(grammar) => {
            let shown = String::from_utf8_lossy(text);
            let image = sealed_image(&grammar);
            assert_eq!(refusal(&image), None, "{shown}");
            assert_eq!(list_sets(&grammar).lines().count(), counts(&image).sets, "{shown}");
            for list in [list_letters, list_pairs, list_entries] {
                assert!(!list(&grammar).is_empty(), "{shown}");
            }
            assert!(warnings(&grammar).iter().all(|warning| warning.line > 0), "{shown}");
            let again = read_grammar(written(&grammar).unwrap().as_bytes()).unwrap();
            assert!(sealed_image(&again) == image, "{shown}");
            true
        }
        Err(faults) => {
            assert!(!faults.by_line().is_empty(), "a text is refused without a fault");
            false
        }
    }
}

/// Counts the texts that gave an image and those that did not.
fn try_texts(text: String, rounds: usize) -> (usize, usize) {
    let whole = text.into_bytes();
    let mut random = Random(0x2545_f491_4f6c_dd1d);
    let (mut taken, mut refused) = (0, 0);
    for _ in 0..rounds {
        let mut text = whole.clone();
        for _ in 0..1 + random.below(3) {
            slip(&mut text, &mut random);
        }
        if try_text(&text) {
            taken += 1;
        } else {
            refused += 1;
        }
    }
    (taken, refused)
}

#[test]
fn luz_with_slips() {
    let (taken, refused) = try_texts(sample("luz"), 4_000);
    assert!(taken > 100 && refused > 100, "{taken} taken, {refused} refused");
}

/// luz in form 2, where many slips leave entries with several ways on.
#[test]
fn luz_in_form_2_with_slips() {
    let text = sample("luz").replace("  Number  ", "  Forms Noun  ");
    let (taken, refused) = try_texts(text.replace("LEXICON Noun", "ALTERNATION Forms # Number\nLEXICON Noun"), 4_000);
    assert!(taken > 100 && refused > 100, "{taken} taken, {refused} refused");
}

#[test]
fn quichua_with_slips() {
    let (taken, refused) = try_texts(sample("quichua"), 150);
    assert!(taken > 10 && refused > 10, "{taken} taken, {refused} refused");
}

/// Most of quichua is lexicon; with a few stems left, most slips meet its letters, sets and rules.
#[test]
fn the_sets_of_quichua_with_slips() {
    let text = sample("quichua");
    let rules = text.find("; SOUNDS OF SUFFIXES").unwrap();
    let (taken, refused) = try_texts(format!("{}LEXICON V\nqeq #\niyqa #\nEND\n", &text[..rules]), 4_000);
    assert!(taken > 100 && refused > 100, "{taken} taken, {refused} refused");
}
