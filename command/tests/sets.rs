//! Named sets: how they are written and numbered, and which pairs a column takes by them.

mod support;

use headwords_command::{list_sets, read_grammar};
use support::check::{counts, refusal, seal, sets, tables};
use support::{accepted, assembled};

const GRAMMAR: &str = "\
BOUNDARY #
NULL 0
ANY @
ALPHABET + a e i t c
SUBSET V a e i
SUBSET Ends # t
PAIRS +:0 0:t a:a e:e i:i i:e t:t t:c
SUBSET None c
SUBSET Gone 0
RULE \"r\" 1 3
V Ends @
@ @    @
1: 1 1 1
LEXICON V
a+i #
END
";

fn edited(from: &str, to: &str) -> String {
    support::edited(GRAMMAR, from, to)
}

/// The sides of the first rule's columns.
fn sides(image: &[u8]) -> &[u8] {
    let table = tables(image)[0];
    &table[2..2 + 2 * table[0] as usize]
}

/// The grammar with a rule of one state and these columns.
fn with_columns(lexical: &str, surface: &str) -> String {
    let columns = lexical.split(' ').count();
    let row = "1 ".repeat(columns);
    edited(
        "RULE \"r\" 1 3\nV Ends @\n@ @    @\n1: 1 1 1\n",
        &format!("RULE \"r\" 1 {columns}\n{lexical}\n{surface}\n1: {row}\n"),
    )
}

/// What is told of a rule with these columns, or nothing.
fn told(lexical: &str, surface: &str) -> Option<String> {
    let faults = assembled(&with_columns(lexical, surface)).err()?;
    assert_eq!(faults.len(), 1);
    Some(faults[0].what.clone())
}

fn tie(pair: &str, columns: &str) -> Option<String> {
    Some(format!("rule \"r\": for the pair {pair} columns {columns} are equally narrow"))
}

#[test]
fn the_block_of_sets_is_as_written_by_hand() {
    let image = accepted(GRAMMAR);
    // Form 1; 7 letters, 8 pairs, 1 rule, 1 lexicon, 1 entry, 4 sets.
    assert_eq!(&image[4..20], [1, 0, 7, 0, 8, 0, 1, 0, 1, 0, 1, 0, 4, 0, 0, 0]);
    let mut block = vec![3, 0, 7, 4];
    // Letters: # 1, + 2, a 3, e 4, i 5, t 6, c 7.
    for bits in [0b0011_1000, 0b0100_0010, 0b1000_0000, 0b0000_0001] {
        block.push(bits);
        block.extend([0; 15]);
    }
    block.resize(510, 0);
    assert_eq!(image[3 * 512..4 * 512 - 2], block);
    assert_eq!(image.len(), 7 * 512);
    assert_eq!(image[2 * 512 + 2..][..2], [3, 8]);
    assert_eq!(image[4 * 512 + 2..][..2], [4, 1]);
    assert_eq!(sides(&image), [128, 255, 129, 255, 255, 255]);
}

#[test]
fn the_highest_letter_is_the_lowest_bit_of_the_last_byte() {
    let letters: Vec<char> = (0..113).map(|k| char::from_u32(0x100 + k).unwrap()).collect();
    let more: String = letters.iter().map(|letter| format!(" {letter}")).collect();
    let text = edited("a e i t c", &format!("a e i t c{more}")).replace("None c", &format!("None {}", letters[112]));
    let image = accepted(&text);
    assert_eq!(counts(&image).letters, 120);
    assert_eq!(image[3 * 512 + 4 + 2 * 16..][..16], [0, 0, 0, 0, 0, 0, 0, 0, 0, 0, 0, 0, 0, 0, 0, 1]);
}

#[test]
fn sets_are_numbered_in_the_order_of_the_text() {
    assert_eq!(sets(&accepted(GRAMMAR)), [vec![3, 4, 5], vec![1, 6], vec![7], vec![0]]);
    let text = edited("SUBSET V a e i\nSUBSET Ends # t\n", "SUBSET Ends # t\nSUBSET V a e i\n");
    let image = accepted(&text);
    assert_eq!(sets(&image)[..2], [vec![1, 6], vec![3, 4, 5]]);
    assert_eq!(sides(&image), [129, 255, 128, 255, 255, 255]);
}

#[test]
fn sets_stand_before_or_after_the_pairs() {
    let pairs = "PAIRS +:0 0:t a:a e:e i:i i:e t:t t:c\n";
    let (none, after) = (edited(pairs, ""), "SUBSET Gone 0\n");
    assert!(accepted(&none.replace(after, &format!("{after}{pairs}"))) == accepted(GRAMMAR));
    assert!(accepted(&none.replace("SUBSET V", &format!("{pairs}SUBSET V"))) == accepted(GRAMMAR));
}

#[test]
fn letters_stand_on_as_many_lines_as_you_like_in_any_order() {
    for letters in ["V i a e", "V\n a\n\n e i", "V a ; the first\n e\n i"] {
        assert!(accepted(&edited("V a e i", letters)) == accepted(GRAMMAR), "{letters:?}");
    }
}

#[test]
fn a_set_is_listed_as_the_text_writes_it() {
    let text = edited("Ends # t", "Ends t\n # 0");
    let list = list_sets(&read_grammar(text.as_bytes()).unwrap());
    assert_eq!(list, "0\tV\ta e i\n1\tEnds\tt # 0\n2\tNone\tc\n3\tGone\t0\n");
}

#[test]
fn without_sets_the_image_has_no_block_of_them() {
    let sets = ["SUBSET V a e i\n", "SUBSET Ends # t\n", "SUBSET None c\n", "SUBSET Gone 0\n"];
    let text = sets.iter().fold(with_columns("a @", "@ @"), |text, set| text.replace(set, ""));
    let image = accepted(&text);
    assert_eq!((image.len(), counts(&image).sets), (6 * 512, 0));
    assert_eq!(image[3 * 512 + 2], 4);
}

/// A lexicon may have the same name; a letter and a set never have, so a side of one character is never both.
#[test]
fn a_name_is_any_word_that_nothing_else_in_a_column_is() {
    for name in ["V", "1:", "v", "\u{10000}", "Vowels", "e\u{301}", "Pairs", "::", "-"] {
        let text = edited("SUBSET V a", &format!("SUBSET {name} a")).replace("\nV Ends", &format!("\n{name} Ends"));
        assert!(accepted(&text) == accepted(GRAMMAR), "{name}");
    }
}

#[test]
fn a_set_matches_the_letters_that_it_has() {
    // V:@ takes a:a, e:e, i:i and i:e. Without @:@ the next pair is at a loss.
    assert_eq!(told("V", "@"), Some("rule \"r\": no column matches the pair +:0".into()));
    assert_eq!(told("+ V", "@ @"), Some("rule \"r\": no column matches the pair 0:t".into()));
    assert_eq!(told("+ V Gone", "@ @ @"), Some("rule \"r\": no column matches the pair t:t".into()));
    assert_eq!(told("+ V Gone t", "@ @ @ @"), Some("rule \"r\": no column matches the pair #:#".into()));
    assert_eq!(told("+ V Gone Ends", "@ @ @ @"), None);
}

#[test]
fn a_set_with_the_null_matches_what_comes_and_goes() {
    // Gone:@ matches 0:t, @:Gone matches +:0; the null with itself is no pair.
    assert_eq!(told("Gone @ V Ends", "@ Gone @ @"), None);
    assert_eq!(told("Gone 0 @", "@ t @"), tie("0:t", "1 (Gone:@) and 2 (0:t)"));
    assert_eq!(told("@ + @", "Gone @ @"), tie("+:0", "1 (@:Gone) and 2 (+:@)"));
    assert_eq!(told("Gone @", "Gone @"), None);
}

#[test]
fn a_set_with_the_boundary_matches_both_ends() {
    assert_eq!(told("Ends # @", "# # @"), tie("#:#", "1 (Ends:#) and 2 (#:#)"));
    // Ends:@ matches t:t, t:c and the boundary pair, which counts: t:@ is narrower.
    assert_eq!(told("Ends t @", "@ @ @"), None);
    assert_eq!(told("Ends # @", "@ @ @"), None);
}

#[test]
fn a_column_may_match_no_pair() {
    assert_eq!(told("None @", "@ @"), None);
    assert_eq!(told("None None @", "@ @ @"), None);
    assert_eq!(told("V @", "Gone @"), None);
}

#[test]
fn narrowness_counts_pairs_and_never_letters() {
    // V has three letters, and V:i matches one pair; i:@ matches two.
    assert_eq!(told("V i @", "i @ @"), None);
    // i:@ and V:e match two pairs each.
    assert_eq!(told("i V @", "@ e @"), tie("i:e", "1 (i:@) and 2 (V:e)"));
    // The set of one letter is as narrow as the letter.
    let one = with_columns("+ None @", "@ @ @").replace("None c", "None +");
    let faults = assembled(&one).unwrap_err();
    assert_eq!(Some(faults[0].what.clone()), tie("+:0", "1 (+:@) and 2 (None:@)"));
}

#[test]
fn two_sets_that_are_equally_narrow_are_told_by_their_names() {
    let text = with_columns("V None @", "@ @ @").replace("None c", "None a e i");
    let faults = assembled(&text).unwrap_err();
    assert_eq!(Some(faults[0].what.clone()), tie("a:a", "1 (V:@) and 2 (None:@)"));
    assert_eq!((faults.len(), faults[0].line), (1, 11));
    assert_eq!(told("V V @", "@ @ @"), tie("a:a", "1 (V:@) and 2 (V:@)"));
}

/// A grammar of two letters with the sets A and B and a rule of one state.
fn two_sets(a: &str, b: &str, [lexical, surface]: [&str; 2]) -> String {
    let columns = lexical.split(' ').count();
    let row = " 1".repeat(columns);
    format!(
        "BOUNDARY #\nNULL 0\nANY @\nALPHABET a b\nPAIRS a:a a:b b:b b:0 0:a\nSUBSET A {a}\nSUBSET B {b}\n\
         RULE \"r\" 1 {columns}\n{lexical}\n{surface}\n1:{row}\nLEXICON x\na #\nEND\n"
    )
}

/// The image of two sets with others written into it, so that a refused text has an image too.
fn written(image: &[u8], a: u8, b: u8) -> Vec<u8> {
    let mut image = image.to_vec();
    (image[3 * 512 + 4], image[3 * 512 + 20]) = (a, b);
    seal(&mut image);
    image
}

#[test]
fn over_every_choice_of_two_sets_just_the_tables_that_7_refuses_are_told() {
    // Bit 0 is the null, bit 1 the boundary, bits 2 and 3 are a and b.
    let letters = |bits: u8| (0..4).filter(|b| bits >> b & 1 == 1).map(|b| ["0", "#", "a", "b"][b]).collect::<Vec<_>>();
    let tables = [
        ["A B @", "@ @ @"],
        ["A @ @", "@ B @"],
        ["A B @", "B A @"],
        ["A B a @", "A B @ @"],
        ["A B", "@ @"],
        ["A # 0 @", "B @ @ B"],
    ];
    let (mut taken, mut refused) = (0, 0);
    for table in tables {
        let some = (1..16).flat_map(|a| (1..16).map(move |b| (a, b)));
        let text = |(a, b): (u8, u8)| two_sets(&letters(a).join(" "), &letters(b).join(" "), table);
        let base = some.clone().find_map(|choice| assembled(&text(choice)).ok()).unwrap();
        for (a, b) in some {
            let image = written(&base, a, b);
            match (assembled(&text((a, b))), refusal(&image)) {
                (Ok(found), None) => {
                    assert!(found == image, "{table:?} {a} {b}");
                    taken += 1;
                }
                (Err(faults), Some(7)) => {
                    assert_eq!((faults.len(), faults[0].line), (1, 9), "{table:?} {a} {b}");
                    refused += 1;
                }
                (found, verdict) => panic!("{table:?} {a} {b}: {found:?} {verdict:?}"),
            }
        }
    }
    assert!(taken > 100 && refused > 100, "{taken} taken, {refused} refused");
}
