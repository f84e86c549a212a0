//! Each fault of a text is told with file, line and reason, and an image that was there stays.

mod support;

use std::fs;
use support::{names, run, scratch, Ran};

/// A grammar without a fault. Its lines are counted below, so a change here moves them.
const GRAMMAR: &str = "\
; a small grammar
BOUNDARY #
NULL 0
ANY @
ALPHABET
  + c e l s
  u z Z
PAIRS
  +:0 c:c e:e
  l:l s:s u:u Z:c Z:z
RULE \"Z\" 5 5
     Z Z + e @
     c z 0 e @
  1: 3 2 1 1 1
  2: 3 2 4 1 1
  3: 0 0 5 0 0
  4: 3 2 1 0 1
  5. 0 0 0 1 0
LEXICON Noun
  luZ Number \"luz\"
  luc Number 7
LEXICON Number
  0   #
  +es # \"plural\"
END
";

const IMAGE: &[u8] = b"an image from before";

/// A part of the grammar, what stands in its place, and what the program has to say.
type Case<'a> = (&'a str, &'a str, usize, &'a str);

fn edited(from: &str, to: &str) -> String {
    support::edited(GRAMMAR, from, to)
}

/// Runs the program on a text beside an image from before, and sees that the image stays.
fn refused(test: &str, text: &[u8]) -> Ran {
    let folder = scratch(test);
    fs::write(folder.join("grammar.txt"), text).unwrap();
    fs::write(folder.join("grammar.img"), IMAGE).unwrap();
    let ran = run(&folder, &["assemble", "grammar.txt", "grammar.img"]);
    assert_eq!(fs::read(folder.join("grammar.img")).unwrap(), IMAGE, "the image from before");
    assert_eq!(names(&folder), ["grammar.img", "grammar.txt"], "nothing is left beside it");
    ran
}

fn check(test: &str, cases: &[Case]) {
    for &(from, to, line, what) in cases {
        let ran = refused(test, edited(from, to).as_bytes());
        let stderr = format!("grammar.txt:{line}: {what}\n");
        assert_eq!(ran, Ran { code: Some(1), stdout: String::new(), stderr }, "{from:?} to {to:?}");
    }
}

#[test]
fn the_grammar_without_a_fault_is_assembled() {
    let folder = scratch("faults-none");
    fs::write(folder.join("grammar.txt"), GRAMMAR).unwrap();
    fs::write(folder.join("grammar.img"), IMAGE).unwrap();
    let ran = run(&folder, &["assemble", "grammar.txt", "grammar.img"]);
    assert_eq!(ran, Ran { code: Some(0), stdout: String::new(), stderr: String::new() });
    assert_eq!(fs::read(folder.join("grammar.img")).unwrap().len(), 6 * 512);
    assert_eq!(names(&folder), ["grammar.img", "grammar.img.names", "grammar.txt"]);
}

#[test]
fn of_the_text() {
    check(
        "faults-text",
        &[
            ("luZ N", "luZ\u{a0} N", 20, "U+00A0, a character that cannot be seen"),
            ("luZ N", "lu\u{0}Z N", 20, "U+0000, a character that cannot be seen"),
            ("\"luz\"", "\"l\tz\"", 20, "U+0009, a character that cannot be seen"),
            ("\"luz\"", "\"luz", 20, "a quotation mark without its partner in the same line"),
            ("\"luz\"", "x\"luz\"", 20, "x\": put a blank before the quotation mark"),
            ("\"luz\"", "\"luz\"x", 20, "\"luz\": put a blank after the quotation mark"),
        ],
    );
}

#[test]
fn of_bytes_that_are_not_utf_8() {
    let mut bytes = GRAMMAR.as_bytes().to_vec();
    let at = GRAMMAR.find("luZ").unwrap();
    bytes[at] = 0xff;
    let ran = refused("faults-utf-8", &bytes);
    let stderr =
        "grammar.txt:20: a byte that is not UTF-8, FF, which in Latin-1 is ÿ; save the file as UTF-8\n".to_string();
    assert_eq!(ran, Ran { code: Some(1), stdout: String::new(), stderr });
}

#[test]
fn of_sections() {
    let order = "sections stand in this order: BOUNDARY, NULL, ANY, ALPHABET and perhaps FORM, then SUBSET and PAIRS, then RULE, then ALTERNATION and LEXICON, END";
    check(
        "faults-sections",
        &[
            ("; a small grammar", "a small grammar", 1, &format!("a: no section is open; {order}")),
            ("NULL 0\nANY @\n", "ANY @\n", 24, "no NULL before this"),
            ("BOUNDARY #\n", "", 24, "no BOUNDARY before this"),
            ("ANY @\n", "", 24, "no ANY before this"),
            ("ANY @", "ANY @\nNULL -", 5, "a second NULL; the first is in line 3"),
            ("BOUNDARY #", "PAIRS #:#\nBOUNDARY #", 3, &format!("BOUNDARY after PAIRS; {order}")),
            (
                "LEXICON Number",
                "RULE \"late\" 1 1\n@\n@\n1: 1\nLEXICON Number",
                22,
                &format!("RULE after LEXICON; {order}"),
            ),
            ("LEXICON Number", "PAIRS z:z\nLEXICON Number", 22, &format!("PAIRS after LEXICON; {order}")),
            ("LEXICON Noun", "SUBSET Late c\nLEXICON Noun", 19, &format!("SUBSET after RULE; {order}")),
            ("LEXICON Number", "SUBSET Late c\nLEXICON Number", 22, &format!("SUBSET after LEXICON; {order}")),
            ("ANY @", "SUBSET Early #\nANY @", 5, &format!("ANY after SUBSET; {order}")),
            ("ALPHABET", "SUBSET Early c\nALPHABET", 6, &format!("ALPHABET after SUBSET; {order}")),
            ("LEXICON Noun", "FORM 2\nLEXICON Noun", 19, &format!("FORM after RULE; {order}")),
            ("ANY @", "ANY @\nFORM 1\nFORM 2", 6, "a second FORM; the first is in line 5"),
            ("RULE", "ALTERNATION A Number #\nRULE", 12, &format!("RULE after ALTERNATION; {order}")),
            ("END\n", "END\nSUBSET Late c\n", 26, "only comments may follow END"),
            ("END\n", "", 24, "no END after this; the text may have been cut off"),
            ("END\n", "END\n; a comment\n  +s #\n", 27, "only comments may follow END"),
            ("END\n", "END\nEND\n", 26, "only comments may follow END"),
            ("END\n", "END of it\n", 25, "only comments may follow END"),
        ],
    );
    let nothing = refused("faults-sections", b"");
    assert_eq!(nothing.stderr, "grammar.txt:1: no END after this; the text may have been cut off\n");
    assert_eq!(nothing.code, Some(1));
    let no_lexicon = &GRAMMAR[..GRAMMAR.find("LEXICON").unwrap()];
    let no_lexicon = refused("faults-sections", format!("{no_lexicon}END\n").as_bytes());
    assert_eq!(no_lexicon.stderr, "grammar.txt:19: no LEXICON before this\n");
    assert_eq!(no_lexicon.code, Some(1));
}

#[test]
fn of_letters() {
    check(
        "faults-letters",
        &[
            ("BOUNDARY #", "BOUNDARY # $", 2, "BOUNDARY takes one character; $ is one too many"),
            ("NULL 0", "NULL", 3, "NULL takes one character, and none is here"),
            ("NULL 0", "NULL \"0\"", 3, "\"0\": a letter stands without quotation marks"),
            ("NULL 0", "NULL #", 3, "NULL and BOUNDARY are the same character"),
            ("ANY @", "ANY 0", 4, "ANY is also NULL or BOUNDARY"),
            ("ANY @", "ANY #", 4, "ANY is also NULL or BOUNDARY"),
            ("u z Z", "u z Z c", 7, "letter c (U+0063) is listed already"),
            ("u z Z", "u z Z 0", 7, "letter 0 (U+0030) is the null"),
            ("u z Z", "u z Z @", 7, "letter @ (U+0040) stands for any letter"),
            ("u z Z", "u z Z #", 7, "letter # (U+0023) is the boundary, letter 1 without being listed"),
            ("u z Z", "u z Z ch", 7, "ch: a letter is one character, and this is U+0063 U+0068; is a blank missing?"),
            (
                "u z Z",
                "u z Z e\u{301}",
                7,
                "e\u{301}: a letter is one character, and this is U+0065 U+0301; as one character it is é (U+00E9)",
            ),
            ("u z Z", "u z Z \u{10000}", 7, "letter \u{10000} (U+10000) lies above U+FFFF"),
        ],
    );
}

/// Each text puts sets before the pairs, in line 8 and after.
#[test]
fn of_sets() {
    let takes = "SUBSET takes a name, without quotation marks, and then letters";
    let cases = [
        ("SUBSET", 8, takes),
        ("SUBSET \"Front\" e", 8, takes),
        ("SUBSET\n  Front e", 8, takes),
        ("SUBSET Front", 8, "set Front has no letters"),
        ("SUBSET Front ; e", 8, "set Front has no letters"),
        ("SUBSET c e", 8, "c cannot name a set: it is a letter; is the name missing?"),
        ("SUBSET 0 e", 8, "0 cannot name a set: it is the null"),
        ("SUBSET # e", 8, "# cannot name a set: it is the boundary"),
        ("SUBSET @ e", 8, "@ cannot name a set: it stands for any letter"),
        ("SUBSET END e", 8, "END cannot name a set: it is a keyword"),
        ("SUBSET SUBSET e", 8, "SUBSET cannot name a set: it is a keyword"),
        ("SUBSET Front e\nSUBSET Front e", 9, "a second set Front; the first is in line 8"),
        ("SUBSET Front e\nSUBSET Low u\nSUBSET Front", 10, "a second set Front; the first is in line 8"),
        ("SUBSET Front e\n  u e", 9, "e (U+0065) is in set Front already"),
        ("SUBSET Front 0 0", 8, "0 (U+0030) is in set Front already"),
        ("SUBSET Front # e #", 8, "# (U+0023) is in set Front already"),
        ("SUBSET Front e\n\n  k", 10, "k (U+006B) is no letter of the alphabet"),
        ("SUBSET Front e @", 8, "@ stands for any letter, which only a rule's column may"),
        ("SUBSET Front \"e\"", 8, "\"e\": a letter stands without quotation marks"),
        ("SUBSET Front eu", 8, "eu: a letter is one character, and this is U+0065 U+0075; is a blank missing?"),
        (
            "SUBSET Low u\nSUBSET Front e Low",
            9,
            "Low: a letter is one character, and this is U+004C U+006F U+0077; is a blank missing?",
        ),
        ("SUBSET Front \u{10000}", 8, "letter \u{10000} (U+10000) lies above U+FFFF"),
    ];
    let texts = cases.map(|(sets, ..)| format!("{sets}\nPAIRS"));
    let cases: Vec<Case> =
        texts.iter().zip(cases).map(|(text, (_, line, what))| ("PAIRS", &text[..], line, what)).collect();
    check("faults-sets", &cases);
}

#[test]
fn all_faults_of_sets_are_told_and_hide_those_of_pairs() {
    let text = edited("PAIRS", "SUBSET c e\nSUBSET Front k e e\nSUBSET Low\nPAIRS").replace("u:u", "u:k");
    let ran = refused("faults-several-sets", text.as_bytes());
    let stderr = "\
grammar.txt:8: c cannot name a set: it is a letter; is the name missing?
grammar.txt:9: k (U+006B) is no letter of the alphabet
grammar.txt:9: e (U+0065) is in set Front already
grammar.txt:10: set Low has no letters
";
    assert_eq!(ran, Ran { code: Some(1), stdout: String::new(), stderr: stderr.to_string() });
}

#[test]
fn of_pairs() {
    check(
        "faults-pairs",
        &[
            ("u:u Z:c", "u:u k:c", 10, "pair k:c: k (U+006B) is no letter of the alphabet"),
            ("u:u Z:c", "u:u Z:k", 10, "pair Z:k: k (U+006B) is no letter of the alphabet"),
            ("u:u Z:c", "u:u 0:0", 10, "0:0 is a pair of two nulls"),
            ("u:u Z:c", "u:u #:#", 10, "pair #:#: the boundary pairs with itself only, and is not listed"),
            ("u:u Z:c", "u:u Z:#", 10, "pair Z:#: the boundary pairs with itself only, and is not listed"),
            ("u:u Z:c", "u:u Z:@", 10, "pair Z:@: @ stands for any letter, which only a rule's column may"),
            ("u:u Z:c", "u:u c:c", 10, "pair c:c is listed already"),
            ("u:u Z:c", "u:u Zc", 10, "Zc: a pair is written as two letters and a colon, a:b; is Z:c meant?"),
            (
                "u:u Z:c",
                "u:u Z:cc",
                10,
                "Z:cc: a pair is written as two letters and a colon, a:b; each side is one character",
            ),
            ("u:u Z:c", "u:u Z:", 10, "Z:: a pair is written as two letters and a colon, a:b; is Z:0 meant?"),
            (
                "u:u Z:c",
                "u:u \"Z:c\"",
                10,
                "Z:c: a pair is written as two letters and a colon, a:b; take the quotation marks away",
            ),
        ],
    );
}

#[test]
fn of_rule_tables() {
    let heading = "RULE takes a name in quotation marks, the count of states, and of columns";
    let letters = "a rule has a row of lexical sides and a row of surface sides";
    let side = "a side of a column is one character or the name of a set";
    let next = "a next state is a number from 0 to 5";
    check(
        "faults-rules",
        &[
            ("RULE \"Z\" 5 5", "RULE Z 5 5", 11, &format!("{heading}; Z is not in quotation marks")),
            ("RULE \"Z\" 5 5", "RULE \"Z\" 5", 11, &format!("{heading}; a count is missing")),
            ("RULE \"Z\" 5 5", "RULE \"Z\" five 5", 11, &format!("{heading}; five is no count")),
            ("RULE \"Z\" 5 5", "RULE \"Z\" +5 5", 11, &format!("{heading}; +5 is no count")),
            ("RULE \"Z\" 5 5", "RULE \"Z\" 5 5 5", 11, &format!("{heading}; there is a count too many")),
            (
                "RULE \"Z\" 5 5",
                "RULE \"Z\" 99999999999999999999 5",
                11,
                &format!("{heading}; 99999999999999999999 is no count"),
            ),
            ("RULE \"Z\" 5 5", "RULE \"Z\" 4 5", 18, "a row more than the rule's 4 states"),
            ("RULE \"Z\" 5 5", "RULE \"Z\" 6 5", 18, "5 rows where the rule has 6 states"),
            ("RULE \"Z\" 5 5", "RULE \"Z\" 5 4", 12, "5 lexical sides where the rule has 4 columns"),
            ("c z 0 e @", "c z 0 e", 13, "4 surface sides where the rule has 5 columns"),
            ("c z 0 e @", "c z 0 e k", 13, "k (U+006B) is no letter of the alphabet, and no set is called so"),
            ("Z Z + e @", "Z Z + e any", 12, &format!("no set is called any; {side}")),
            (
                "c z 0 e @",
                "c z 0 e e\u{301}",
                13,
                &format!("no set is called e\u{301}; {side}; as one character it is é (U+00E9)"),
            ),
            ("Z Z + e @", "Z Z + e \"@\"", 12, &format!("\"@\": {side}, without quotation marks")),
            ("RULE \"Z\" 5 5", "RULE \"empty\" 1 1\nRULE \"Z\" 5 5", 11, letters),
            ("RULE \"Z\" 5 5", "RULE \"empty\" 1 1\n  @\nRULE \"Z\" 5 5", 12, letters),
            ("4: 3 2", "5: 3 2", 17, "the row of state 4 begins with 4: if it is final, else 4., not with 5:"),
            ("4: 3 2", "4 3 2", 17, "the row of state 4 begins with 4: if it is final, else 4., not with 4"),
            ("4: 3 2", "\"4:\" 3 2", 17, "the row of state 4 begins with 4: if it is final, else 4., not with 4:"),
            ("4: 3 2", "04: 3 2", 17, "the row of state 4 begins with 4: if it is final, else 4., not with 04:"),
            ("4: 3 2 1", "4: 3 2", 17, "state 4: 4 next states where the rule has 5 columns"),
            ("4: 3 2 1", "4: 3 6 1", 17, &format!("6: {next}")),
            ("4: 3 2 1", "4: 3 -1 1", 17, &format!("-1: {next}")),
            ("4: 3 2 1", "4: 3 x 1", 17, &format!("x: {next}")),
        ],
    );
}

#[test]
fn of_columns() {
    check(
        "faults-columns",
        &[
            ("     Z Z + e @", "     Z Z + e #", 12, "rule \"Z\": no column matches the pair c:c"),
            ("c z 0 e @", "c @ 0 e #", 12, "rule \"Z\": no column matches the pair c:c"),
            (
                "c z 0 e @",
                "c c 0 e @",
                12,
                "rule \"Z\": for the pair Z:c columns 1 (Z:c) and 2 (Z:c) are equally narrow",
            ),
            (
                "Z Z + e @\n     c z 0 e @",
                "Z @ + e @\n     @ c 0 e @",
                12,
                "rule \"Z\": for the pair Z:c columns 1 (Z:@) and 2 (@:c) are equally narrow",
            ),
            (
                "Z Z + e @\n     c z 0 e @",
                "Z Z @ @ @\n     c z @ @ @",
                12,
                "rule \"Z\": for the pair +:0 columns 3 (@:@) and 4 (@:@) and 5 (@:@) are equally narrow",
            ),
            (
                "Z Z + e @\n     c z 0 e @",
                "Z # + # @\n     @ @ 0 # @",
                12,
                "rule \"Z\": for the pair #:# columns 2 (#:@) and 4 (#:#) are equally narrow",
            ),
            (
                "Z Z + e @\n     c z 0 e @",
                "0 + c e @\n     @ @ @ @ c",
                12,
                "rule \"Z\": no column matches the pair l:l",
            ),
        ],
    );
}

#[test]
fn of_columns_with_sets() {
    let with_sets = |columns: &str| {
        let text = edited("PAIRS", "SUBSET Front e c\nSUBSET V e u\nPAIRS");
        text.replace("     Z Z + e @\n     c z 0 e @\n", columns)
    };
    for (columns, line, what) in [
        (
            "Z Z + Fron @\nc z 0 e @\n",
            14,
            "no set is called Fron; a side of a column is one character or the name of a set; is Front meant?",
        ),
        ("Z Z + W @\nc z 0 e @\n", 14, "W (U+0057) is no letter of the alphabet, and no set is called so"),
        (
            "Z Z Front V @\nc z @ @ @\n",
            14,
            "rule \"Z\": for the pair e:e columns 3 (Front:@) and 4 (V:@) are equally narrow",
        ),
        (
            "V V Z + @\ne Front @ @ @\n",
            14,
            "rule \"Z\": for the pair e:e columns 1 (V:e) and 2 (V:Front) are equally narrow",
        ),
        ("Z Z + e Front\nc z 0 e @\n", 14, "rule \"Z\": no column matches the pair l:l"),
    ] {
        let ran = refused("faults-columns-sets", with_sets(columns).as_bytes());
        let stderr = format!("grammar.txt:{line}: {what}\n");
        assert_eq!(ran, Ran { code: Some(1), stdout: String::new(), stderr }, "{columns:?}");
    }
}

#[test]
fn of_lexicons() {
    let name = "LEXICON takes one name, without quotation marks";
    check(
        "faults-lexicons",
        &[
            ("LEXICON Noun", "LEXICON", 19, &format!("{name}, and none is here")),
            ("LEXICON Noun", "LEXICON Noun Verb", 19, &format!("{name}, not Noun Verb")),
            ("LEXICON Noun", "LEXICON \"Noun\"", 19, &format!("{name}, not Noun")),
            ("LEXICON Noun", "LEXICON END", 19, "END cannot name a lexicon"),
            ("LEXICON Noun", "LEXICON SUBSET", 19, "SUBSET cannot name a lexicon"),
            ("LEXICON Noun", "LEXICON #", 19, "# cannot name a lexicon"),
            ("LEXICON Noun", "LEXICON Number", 22, "a second lexicon Number; the first is in line 19"),
            ("luZ Number", "luZ Plural", 20, "no lexicon is called Plural; # in its place ends the word"),
            ("luZ Number", "luZ END", 20, "no lexicon is called END; # in its place ends the word"),
        ],
    );
}

#[test]
fn of_entries() {
    let entry = "an entry is a form, one continuation or more, and perhaps a gloss, a number or in quotation marks";
    let gloss = "a gloss is a number from 0 to 65535, or in quotation marks";
    check(
        "faults-entries",
        &[
            ("luZ Number \"luz\"", "luZ", 20, &format!("{entry}; the continuation is missing, and # ends the word")),
            ("luZ Number \"luz\"", "luZ Number \"luz\" 7", 20, &format!("{entry}; 7 is one too many, after the gloss")),
            ("luZ Number \"luz\"", "\"luZ\" Number", 20, &format!("{entry}; a form stands without quotation marks")),
            ("luZ Number", "luk Number", 20, "form luk: k (U+006B) is no letter of the alphabet"),
            (
                "luZ Number",
                "lu0 Number",
                20,
                "form lu0: 0 is the null; alone it is an empty form, in a form it cannot stand",
            ),
            ("luZ Number", "#luZ Number", 20, "form #luZ: # is the boundary, which cannot stand in a form"),
            ("luZ Number", "lu@ Number", 20, "form lu@: @ stands for any letter, which only a rule's column may"),
            ("luZ Number", "luZluZluZluZl Number", 20, "form luZluZluZluZl has 13 letters; allowed are 12"),
            ("luc Number 7", "luc Number 65536", 21, &format!("gloss 65536: {gloss}")),
            ("luc Number 7", "luc Number 99999999999", 21, &format!("gloss 99999999999: {gloss}")),
            ("luc Number 7", "luc Number luc", 21, "no lexicon is called luc; is \"luc\" meant, a gloss?"),
            ("luc Number 7", "luc Number -1", 21, "no lexicon is called -1; is \"-1\" meant, a gloss?"),
        ],
    );
}

#[test]
fn of_letters_that_no_pair_has_on_its_lexical_side() {
    let no_z = "no pair has z (U+007A) on its lexical side; it is a surface side only, as in Z:z";
    let no_e = "form +es: no pair has e (U+0065) on its lexical side";
    check(
        "faults-spelling",
        &[
            ("luZ Number", "luz Number", 20, &format!("form luz: {no_z}")),
            ("luZ Number", "zuz Number", 20, &format!("form zuz: {no_z}")),
            ("+es #", "+ez #", 24, &format!("form +ez: {no_z}")),
            // The rule keeps its column e:e, which is no pair.
            ("c:c e:e", "c:c", 24, no_e),
            ("c:c e:e", "c:c 0:e", 24, &format!("{no_e}; it is a surface side only, as in 0:e")),
            ("c:c e:e", "c:c Z:e s:e", 24, &format!("{no_e}; it is a surface side only, as in Z:e")),
            // A form is read whole before its pairs are looked for, and its continuation comes after.
            ("luZ Number", "zk Number", 20, "form zk: k (U+006B) is no letter of the alphabet"),
            ("luZ Number", "zluZluZluZluZ Number", 20, "form zluZluZluZluZ has 13 letters; allowed are 12"),
            ("luZ Number", "luz Plural", 20, &format!("form luz: {no_z}")),
        ],
    );
}

#[test]
fn every_entry_with_such_a_letter_is_told() {
    let text = edited("l:l s:s", "s:s").replace("+es #", "+ez #").replace("4: 3 2", "4: 9 2");
    let ran = refused("faults-every-entry", text.as_bytes());
    let stderr = "\
grammar.txt:17: 9: a next state is a number from 0 to 5
grammar.txt:20: form luZ: no pair has l (U+006C) on its lexical side
grammar.txt:21: form luc: no pair has l (U+006C) on its lexical side
grammar.txt:24: form +ez: no pair has z (U+007A) on its lexical side; it is a surface side only, as in Z:z
";
    assert_eq!(ran, Ran { code: Some(1), stdout: String::new(), stderr: stderr.to_string() });
}

#[test]
fn all_faults_of_rules_and_lexicons_are_told_in_order() {
    let text = edited("luZ Number", "luk Number").replace("+es #", "+es Case").replace("4: 3 2", "4: 9 2");
    let ran = refused("faults-several", text.as_bytes());
    let stderr = "\
grammar.txt:17: 9: a next state is a number from 0 to 5
grammar.txt:20: form luk: k (U+006B) is no letter of the alphabet
grammar.txt:24: no lexicon is called Case; # in its place ends the word
";
    assert_eq!(ran, Ran { code: Some(1), stdout: String::new(), stderr: stderr.to_string() });
}

#[test]
fn after_twenty_faults_the_rest_is_counted() {
    let text = edited("luZ Number \"luz\"\n", &"k #\n".repeat(25));
    let ran = refused("faults-many", text.as_bytes());
    let lines: Vec<&str> = ran.stderr.lines().collect();
    assert_eq!(lines.len(), 21);
    assert_eq!(lines[19], "grammar.txt:39: form k: k (U+006B) is no letter of the alphabet");
    assert_eq!(lines[20], "grammar.txt:0: 5 faults more");
    assert_eq!(ran.code, Some(1));
}
