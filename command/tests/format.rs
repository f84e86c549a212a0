//! What the format leaves free: order and layout, the characters of its own, forms, continuations and glosses.

mod support;

use headwords_command::{list_entries, list_pairs, read_grammar};
use support::accepted;
use support::check::{counts, entries, lexicon_counts, seal};

const GRAMMAR: &str = "\
BOUNDARY #
NULL 0
ANY @
ALPHABET + a b
PAIRS +:0 a:a b:b
RULE \"free\" 1 2
   # @
   # @
1: 1 1
LEXICON Stem
ab Ending \"x\"
LEXICON Ending
0 #
+a # 500
END
";

fn edited(from: &str, to: &str) -> String {
    support::edited(GRAMMAR, from, to)
}

#[test]
fn declarations_stand_in_any_order() {
    let text = edited("BOUNDARY #\nNULL 0\nANY @\nALPHABET + a b\n", "ALPHABET + a b\nANY @\nBOUNDARY #\nNULL 0\n");
    assert!(accepted(&text) == accepted(GRAMMAR));
}

#[test]
fn blanks_and_comments_mean_nothing() {
    let text = edited("ALPHABET + a b", "\tALPHABET;letters\n +\n\n  a\tb;\"")
        .replace("PAIRS +:0 a:a", "PAIRS\n+:0   a:a\n")
        .replace("ab Ending", "; RULE\n  ab\t\tEnding");
    assert!(accepted(&text) == accepted(GRAMMAR));
}

#[test]
fn a_comment_does_not_begin_inside_quotation_marks() {
    let text = edited("\"x\"", "\"x; y\" ; z").replace("\"free\"", "\"; free\"");
    let list = list_entries(&read_grammar(text.as_bytes()).unwrap());
    assert_eq!(list.lines().next(), Some("0\tStem\tab\tEnding\t0\tx; y"));
}

#[test]
fn boundary_null_and_any_may_be_other_characters() {
    let text: String = GRAMMAR.replace("500", "five hundred");
    let text = text.replace('#', "$").replace('0', "-").replace('@', "*").replace("five hundred", "500");
    let mut right = accepted(GRAMMAR);
    right[512 + 4] = b'$';
    seal(&mut right);
    assert!(accepted(&text) == right);
}

#[test]
fn a_colon_may_be_a_letter() {
    let text = edited("ALPHABET + a b", "ALPHABET + a b :").replace("b:b", "b:b ::: ::0");
    let list = list_pairs(&read_grammar(text.as_bytes()).unwrap());
    assert_eq!(list, "0\t+:0\n1\ta:a\n2\tb:b\n3\t:::\n4\t::0\n");
}

#[test]
fn lexicons_may_be_empty_or_follow_themselves() {
    let text = edited("LEXICON Stem\n", "LEXICON Empty\nLEXICON Stem\nb Stem\n");
    let image = accepted(&text);
    assert_eq!(lexicon_counts(&image), [0, 2, 2]);
    let continuations: Vec<u8> = entries(&image).iter().map(|entry| entry[13]).collect();
    assert_eq!(continuations, [1, 2, 255, 255]);
}

#[test]
fn a_grammar_may_have_no_rule() {
    let text = edited("RULE \"free\" 1 2\n   # @\n   # @\n1: 1 1\n", "");
    assert_eq!(counts(&accepted(&text)).rules, 0);
}

#[test]
fn a_gloss_is_the_entry_s_own_number_unless_it_is_a_number() {
    let text = edited("0 #\n", "0 #\nb # \"\"\n");
    let image = accepted(&text);
    let glosses: Vec<u16> = entries(&image).iter().map(|entry| u16::from_le_bytes([entry[14], entry[15]])).collect();
    assert_eq!(glosses, [0, 1, 2, 500]);
}
