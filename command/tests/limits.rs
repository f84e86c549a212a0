//! The limits of documents 01 and 02, each at its edge and with the first value past it.

mod support;

use support::assembled;
use support::check::{counts, entries, refusal, sets, tables};

/// The counts of a grammar made to measure.
#[derive(Clone, Copy)]
struct Sizes {
    letters: usize,
    pairs: usize,
    sets: usize,
    rules: usize,
    columns: usize,
    states: usize,
    lexicons: usize,
    entries: usize,
    form: usize,
}

const SMALL: Sizes =
    Sizes { letters: 20, pairs: 19, sets: 0, rules: 1, columns: 2, states: 2, lexicons: 2, entries: 4, form: 3 };

const LARGEST: Sizes = Sizes {
    letters: 120,
    pairs: 250,
    sets: 31,
    rules: 32,
    columns: 16,
    states: 24,
    lexicons: 64,
    entries: 2_800,
    form: 12,
};

/// Letter 2, 3, ..
fn letter(at: usize) -> char {
    char::from_u32(0x100 + at as u32).unwrap()
}

/// Every letter with itself, then with each next one, up to as many as are wanted.
fn pairs(sizes: Sizes) -> Vec<(char, char)> {
    let others = sizes.letters - 1;
    let all = (0..others).flat_map(|shift| (0..others).map(move |k| (letter(k), letter((k + shift) % others))));
    all.take(sizes.pairs).collect()
}

/// A rule that watches the last sets with themselves, then the first letters, and any pair in its last column. Set k is
/// called sk and has letter k from the end, so that the two never meet.
fn rule(sizes: Sizes) -> String {
    let set_names = (0..sizes.sets).rev().map(|k| format!("s{k} "));
    let letters = (0..).map(|k| format!("{} ", letter(k)));
    let watched: String = set_names.chain(letters).take(sizes.columns.saturating_sub(1)).collect();
    let row = format!(" {}", sizes.states).repeat(sizes.columns);
    let rows: String = (1..=sizes.states).map(|state| format!("{state}:{row}\n")).collect();
    format!("RULE \"r\" {} {}\n{watched}@\n{watched}@\n{rows}", sizes.states, sizes.columns)
}

fn last_letter(sizes: Sizes, k: usize) -> char {
    letter(sizes.letters - 2 - k)
}

fn text(sizes: Sizes) -> String {
    let mut text = "BOUNDARY #\nNULL 0\nANY @\nALPHABET\n".to_string();
    text.extend((0..sizes.letters - 1).map(|k| format!("{}\n", letter(k))));
    text.extend((0..sizes.sets).map(|k| format!("SUBSET s{k} {}\n", last_letter(sizes, k))));
    text += "PAIRS\n";
    text.extend(pairs(sizes).iter().map(|(lexical, surface)| format!("{lexical}:{surface}\n")));
    text += &rule(sizes).repeat(sizes.rules);
    let form: String = (0..sizes.form).map(letter).collect();
    for lexicon in 0..sizes.lexicons {
        text += &format!("LEXICON x{lexicon}\n");
        // All entries but one for each further lexicon stand in the first.
        let count = if lexicon == 0 { (sizes.entries + 1).saturating_sub(sizes.lexicons) } else { 1 };
        text += &format!("{form} x{}\n", sizes.lexicons - 1).repeat(count);
    }
    text + "END\n"
}

/// The line of the last text that holds `what`.
fn last_line(text: &str, what: &str) -> usize {
    1 + text.lines().enumerate().filter(|(_, line)| line.contains(what)).last().unwrap().0
}

fn accepted(sizes: Sizes) -> Vec<u8> {
    let image = assembled(&text(sizes)).unwrap();
    assert_eq!(refusal(&image), None);
    let c = counts(&image);
    let found = (c.letters, c.pairs, c.sets, c.rules, c.lexicons, c.entries);
    assert_eq!(found, (sizes.letters, sizes.pairs, sizes.sets, sizes.rules, sizes.lexicons, sizes.entries));
    image
}

/// The text is refused with one fault, in the last line that holds `at`.
fn refused(text: &str, at: &str, what: &str) {
    let faults = assembled(text).unwrap_err();
    let told: Vec<(usize, &str)> = faults.iter().map(|fault| (fault.line, fault.what.as_str())).collect();
    assert_eq!(told, [(last_line(text, at), what)]);
}

#[test]
fn all_limits_at_once() {
    assert_eq!(accepted(LARGEST).len(), 128 * 512);
    assert_eq!(accepted(Sizes { sets: 0, ..LARGEST }).len(), 127 * 512);
}

#[test]
fn letters() {
    accepted(Sizes { letters: 120, ..SMALL });
    let over = text(Sizes { letters: 121, ..SMALL });
    refused(&over, &letter(119).to_string(), "121 letters, counting the boundary; allowed are 2 to 120");

    let two = "BOUNDARY #\nNULL 0\nANY @\nALPHABET a\nPAIRS a:a\nLEXICON x\na #\nEND\n";
    let image = assembled(two).unwrap();
    assert_eq!((refusal(&image), counts(&image).letters), (None, 2));
    refused(
        &two.replace("ALPHABET a", "ALPHABET"),
        "ALPHABET",
        "1 letters, counting the boundary; allowed are 2 to 120",
    );
}

#[test]
fn code_points() {
    let highest = "BOUNDARY #\nNULL 0\nANY @\nALPHABET \u{ffff}\nPAIRS \u{ffff}:\u{ffff}\nLEXICON x\n\u{ffff} #\nEND\n";
    let image = assembled(highest).unwrap();
    assert_eq!((refusal(&image), &image[512 + 6..512 + 8]), (None, &[255, 255][..]));
    let over = highest.replace('\u{ffff}', "\u{10000}");
    refused(&over, "ALPHABET", "letter \u{10000} (U+10000) lies above U+FFFF");
}

#[test]
fn pairs_at_their_limits() {
    accepted(Sizes { pairs: 250, ..SMALL });
    let over = text(Sizes { pairs: 251, ..SMALL });
    let last = pairs(Sizes { pairs: 251, ..SMALL })[250];
    refused(&over, &format!("{}:{}", last.0, last.1), "251 pairs; allowed are 1 to 250");
    // The only pair has the first letter, so forms have no other.
    accepted(Sizes { pairs: 1, form: 1, ..SMALL });
    refused(&text(Sizes { pairs: 0, rules: 0, ..SMALL }), "PAIRS", "0 pairs; allowed are 1 to 250");
}

#[test]
fn sets_at_their_limits() {
    let room = Sizes { letters: 40, pairs: 39, ..SMALL };
    let image = accepted(Sizes { sets: 31, ..room });
    assert_eq!(sets(&image)[30], [10], "set 30 has letter 10 alone");
    assert_eq!(&tables(&image)[0][..6], [2, 2, 158, 158, 255, 255], "set 30 is a side");
    let over = text(Sizes { sets: 32, ..room });
    refused(&over, "SUBSET s31", "32 sets; allowed are 0 to 31");
    accepted(Sizes { sets: 1, ..SMALL });
}

/// The null, the boundary and every letter: 121 bits of 128.
#[test]
fn letters_of_a_set() {
    let all: Vec<String> = (0..119).map(|k| letter(k).to_string()).collect();
    let text =
        text(Sizes { letters: 120, ..SMALL }).replace("PAIRS", &format!("SUBSET All 0 # {}\nPAIRS", all.join(" ")));
    let image = assembled(&text).unwrap();
    assert_eq!((refusal(&image), sets(&image)), (None, vec![(0..=120).collect()]));
}

#[test]
fn rules() {
    accepted(Sizes { rules: 0, ..SMALL });
    accepted(Sizes { rules: 32, ..SMALL });
    let over = text(Sizes { rules: 33, ..SMALL });
    refused(&over, "RULE", "33 rules; allowed are 0 to 32");
}

#[test]
fn columns() {
    accepted(Sizes { columns: 1, ..SMALL });
    accepted(Sizes { columns: 16, ..SMALL });
    refused(&text(Sizes { columns: 17, ..SMALL }), "RULE", "17 columns; allowed are 1 to 16");
    refused(&text(Sizes { columns: 0, ..SMALL }), "RULE", "0 columns; allowed are 1 to 16");
}

#[test]
fn states() {
    accepted(Sizes { states: 1, ..SMALL });
    accepted(Sizes { states: 24, ..SMALL });
    refused(&text(Sizes { states: 25, ..SMALL }), "RULE", "25 states; allowed are 1 to 24");
    refused(&text(Sizes { states: 0, ..SMALL }), "RULE", "0 states; allowed are 1 to 24");
}

#[test]
fn next_states() {
    // Every next state of a grammar made to measure is its last state.
    let image = accepted(SMALL);
    let table = &image[3 * 512 + 4..];
    assert_eq!(&table[8..12], [2, 2, 2, 2]);
    refused(&text(SMALL).replace("2: 2 2", "2: 2 3"), "2: 2 3", "3: a next state is a number from 0 to 2");
}

#[test]
fn lexicons() {
    accepted(Sizes { lexicons: 1, ..SMALL });
    let image = accepted(Sizes { lexicons: 64, entries: 64, ..SMALL });
    assert_eq!(entries(&image)[0][13], 63, "the last lexicon is a continuation");
    let over = text(Sizes { lexicons: 65, entries: 65, ..SMALL });
    refused(&over, "LEXICON", "65 lexicons; allowed are 1 to 64");
}

#[test]
fn entries_at_their_limits() {
    accepted(Sizes { lexicons: 1, entries: 1, ..SMALL });
    accepted(Sizes { entries: 2_800, ..SMALL });
    let over = text(Sizes { lexicons: 1, entries: 2_801, ..SMALL });
    refused(&over, " x0", "2801 entries; allowed are 1 to 2800");
    let none = text(Sizes { lexicons: 1, entries: 0, ..SMALL });
    refused(&none, "LEXICON", "0 entries; allowed are 1 to 2800");
    // 31 entries fill a block; the next one begins another.
    assert_eq!(accepted(Sizes { entries: 31, ..SMALL }).len(), 6 * 512);
    assert_eq!(accepted(Sizes { entries: 32, ..SMALL }).len(), 7 * 512);
}

/// Two more than the first too many follow, each in its own line.
#[test]
fn the_first_too_many_gives_the_line() {
    let line = |text: &str| {
        let faults = assembled(text).unwrap_err();
        assert_eq!(faults.len(), 1);
        faults[0].line
    };
    let letters = text(Sizes { letters: 123, ..SMALL });
    assert_eq!(line(&letters), last_line(&letters, &letter(119).to_string()));
    let pairs = text(Sizes { pairs: 253, ..SMALL });
    assert_eq!(line(&pairs), last_line(&pairs, "RULE") - 3);
    let sets = text(Sizes { letters: 40, pairs: 39, sets: 34, ..SMALL });
    assert_eq!(line(&sets), last_line(&sets, "SUBSET s31"));
    let rules = text(Sizes { rules: 35, ..SMALL });
    assert_eq!(line(&rules), last_line(&rules, "RULE") - 2 * rule(SMALL).lines().count());
    let lexicons = text(Sizes { lexicons: 67, entries: 67, ..SMALL });
    assert_eq!(line(&lexicons), last_line(&lexicons, "LEXICON x64"));
    let entries = text(Sizes { lexicons: 1, entries: 2_803, ..SMALL });
    assert_eq!(line(&entries), last_line(&entries, " x0") - 2);
}

#[test]
fn forms() {
    let image = accepted(Sizes { form: 12, ..SMALL });
    assert_eq!(&entries(&image)[0][..13], [12, 2, 3, 4, 5, 6, 7, 8, 9, 10, 11, 12, 13]);
    let over = text(Sizes { lexicons: 1, entries: 1, form: 13, ..SMALL });
    let form: String = (0..13).map(letter).collect();
    refused(&over, " x0", &format!("form {form} has 13 letters; allowed are 12"));
    let empty = text(Sizes { form: 0, ..SMALL }).replace("\n x1", "\n0 x1");
    let image = assembled(&empty).unwrap();
    assert_eq!((refusal(&image), entries(&image)[0][0]), (None, 0));
}

#[test]
fn glosses() {
    let last = letter(SMALL.form - 1);
    let one = text(Sizes { lexicons: 1, entries: 1, ..SMALL });
    let with = |gloss: &str| one.replace(&format!("{last} x0"), &format!("{last} # {gloss}"));
    let image = assembled(&with("65535")).unwrap();
    assert_eq!((refusal(&image), &entries(&image)[0][14..]), (None, &[255, 255][..]));
    let what = "gloss 65536: a gloss is a number from 0 to 65535, or in quotation marks";
    refused(&with("65536"), "# 65536", what);
}
