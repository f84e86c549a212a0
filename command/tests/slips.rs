//! Slips that people make in a grammar: each is told first, with its line, by the word that is wrong, and with a hint.

mod support;

use std::fs;
use support::{edited, run, sample, scratch};

/// A sample, a place of it, what stands there after the slip, something that only the line to be told has, and what is told.
type Slip = (&'static str, &'static str, &'static str, &'static str, &'static str);

const KEYWORDS: [Slip; 28] = [
    ("luz", "ALPHABET ", "alphabet ", "alphabet ", "alphabet: keywords are written in capitals: ALPHABET"),
    ("luz", "PAIRS ", "Pairs ", "Pairs ", "Pairs: keywords are written in capitals: PAIRS"),
    ("luz", "NULL 0", "null 0", "null 0", "null: keywords are written in capitals: NULL"),
    ("luz", "BOUNDARY #", "Boundary #", "Boundary #", "Boundary: keywords are written in capitals: BOUNDARY"),
    ("luz", "RULE \"", "rule \"", "rule \"", "rule: keywords are written in capitals: RULE"),
    ("quichua", "RULE \"u lowered after", "Rule \"u lowered after", "Rule \"u", "capitals: RULE"),
    ("luz", "LEXICON Noun", "lexicon Noun", "lexicon Noun", "lexicon: keywords are written in capitals: LEXICON"),
    ("luz", "LEXICON Number", "Lexicon Number", "Lexicon Number", "capitals: LEXICON"),
    (
        "spanish",
        "LEXICON Noun1",
        "lexicon Noun1",
        "lexicon Noun1",
        "lexicon: keywords are written in capitals: LEXICON",
    ),
    ("luz", "\nEND", "\nend", "\nend", "end: keywords are written in capitals: END"),
    ("spanish", "\nEND", "\nEnd", "\nEnd", "End: keywords are written in capitals: END"),
    ("luz", "ALPHABET ", "ALPABET ", "ALPABET", "ALPABET is no keyword; is ALPHABET meant?"),
    ("luz", "LEXICON Number", "LEXIKON Number", "LEXIKON", "LEXIKON is no keyword; is LEXICON meant?"),
    ("luz", "RULE \"", "RULES \"", "RULES", "RULES is no keyword; is RULE meant?"),
    ("quichua", "SUBSET Ftr", "SUBSETS Ftr", "SUBSETS", "SUBSETS is no keyword; is SUBSET meant?"),
    ("luz", "BOUNDARY #", "BOUNDARY: #", "BOUNDARY:", "BOUNDARY: is no keyword; is BOUNDARY meant?"),
    (
        "luz",
        "LEXICON Noun",
        "INCLUDE noun.lex\nLEXICON Noun",
        "INCLUDE",
        "INCLUDE is no keyword: rules and lexicons stand in one file",
    ),
    (
        "luz",
        "LEXICON Noun",
        "ALTERNATIONS N Number #\nLEXICON Noun",
        "ALTERNATIONS",
        "ALTERNATIONS is no keyword; is ALTERNATION meant?",
    ),
    ("quichua_ways", "ALTERNATION SuffixTop", "Alternation SuffixTop", "Alternation", "capitals: ALTERNATION"),
    ("luz", "PAIRS ", "FROM 2\nPAIRS ", "FROM 2", "FROM is no keyword; is FORM meant?"),
    ("luz", "PAIRS ", "INITIAL Noun\nPAIRS ", "INITIAL", "INITIAL is no keyword: words begin in the first lexicon"),
    (
        "luz",
        "PAIRS ",
        "FEATURES sg pl\nPAIRS ",
        "FEATURES",
        "FEATURES is no keyword: what an entry means stands in its gloss",
    ),
    (
        "luz",
        "  luc  Number",
        "\\lf luc\n  luc  Number",
        "\\lf",
        "\\lf is no keyword: an entry is one line, a form, a continuation and a gloss",
    ),
    ("quichua", "SUBSET Ftr", "SET Ftr", "SET Ftr ", "SET is no keyword: a set of letters is a SUBSET"),
    (
        "luz",
        "BOUNDARY # ",
        "BOUNDARY # NULL 0 ",
        "BOUNDARY # NULL",
        "BOUNDARY takes one character; NULL is one too many, which begins a line of its own",
    ),
    ("luz", "u z Z\n", "u z Z PAIRS\n", "u z Z PAIRS", "PAIRS is a keyword, which begins a line of its own"),
    ("luz", "PAIRS ", "FEASIBLE PAIRS ", "FEASIBLE", "PAIRS is a keyword, which begins a line of its own"),
    ("luz", "  luc  Number", "INCLUDE Number\n  luc  Number", "INCLUDE", "rules and lexicons stand in one file"),
];

const SECTIONS: [Slip; 8] = [
    ("luz", "BOUNDARY #", "; a comment\nBOUNDARY # $", "BOUNDARY #", "BOUNDARY takes one character; $ is one too many"),
    ("luz", "ANY @ ", "ANY ", "ANY ", "ANY takes one character, and none is here"),
    ("luz", "NULL 0 ", "; NULL 0 ", "\nEND", "no NULL before this"),
    ("luz", "ANY @ ", "NULL - \nANY @ ", "NULL - ", "a second NULL; the first is in line"),
    (
        "luz",
        "LEXICON Number",
        "SUBSET V e u\nLEXICON Number",
        "SUBSET",
        "SUBSET after LEXICON; sections stand in this order",
    ),
    ("luz", "\nEND", "\n", "\"plural\"", "no END after this; the text may have been cut off"),
    ("luz", "\nEND", "\nEND\n  +s # \"more\"", "+s # ", "only comments may follow END"),
    ("luz", "BOUNDARY #", "luz\nBOUNDARY #", "\nluz\n", "luz: no section is open; sections stand in this order"),
];

const LETTERS: [Slip; 16] = [
    ("luz", "u z Z\n", "u z Z ch\n", "Z ch", "ch: a letter is one character, and this is U+0063 U+0068; is a blank missing?"),
    ("spanish", "á é í ó ú ü\n", "á e\u{301} í ó ú ü\n", "e\u{301}", "and this is U+0065 U+0301; as one character it is é (U+00E9)"),
    ("luz", "+ c e l s u", "+ c,e,l s u", "c,e,l", "c,e,l: a letter is one character, and this is U+0063 U+002C U+0065 U+002C U+006C; letters are divided by blanks alone"),
    ("luz", "u z Z\n", "u z Z c\n", "Z c\n", "letter c (U+0063) is listed already"),
    ("luz", "u z Z\n", "u z \"Z\"\n", "\"Z\"", "\"Z\": a letter stands without quotation marks"),
    ("luz", "u z Z\n", "u z Z 0\n", "Z 0\n", "letter 0 (U+0030) is the null"),
    ("luz", "u z Z\n", "u z Z #\n", "Z #\n", "letter # (U+0023) is the boundary"),
    ("luz", "u z Z\n", "u z Z \u{1F600}\n", "\u{1F600}", "(U+1F600) lies above U+FFFF"),
    ("luz", "u z Z\n", "u\u{a0}z Z\n", "\u{a0}", "U+00A0, a character that cannot be seen"),
    ("luz", "u z Z\n", "u z Z c:c\n", "Z c:c", "c:c: a letter is one character, and this is U+0063 U+003A U+0063; pairs stand under PAIRS"),
    ("luz", "ANY @ ", "ANY 0 ", "ANY 0", "ANY is also NULL or BOUNDARY"),
    ("quichua", "SUBSET CPos  q ǧ Q", "SUBSET q ǧ Q", "SUBSET q", "q cannot name a set: it is a letter; is the name missing?"),
    ("quichua", "SUBSET CPos  q ǧ Q", "SUBSET CPos", "SUBSET CPos", "set CPos has no letters"),
    ("quichua", "SUBSET Ftr   y n r", "SUBSET Ftr   y n K", "SUBSET Ftr", "K (U+004B) is no letter of the alphabet; is k (U+006B) meant?"),
    ("quichua", "SUBSET CPos ", "SUBSET Ftr ", "SUBSET Ftr  q", "a second set Ftr; the first is in line"),
    ("quichua", "SUBSET Ftr   y n r", "SUBSET Ftr   y n y", "SUBSET Ftr", "y (U+0079) is in set Ftr already"),
];

const PAIRS: [Slip; 15] = [
    ("luz", "  c:c e:e", "  cc e:e", "  cc ", "cc: a pair is written as two letters and a colon, a:b; is c:c meant?"),
    (
        "luz",
        "  c:c e:e",
        "  c-c e:e",
        "  c-c ",
        "c-c: a pair is written as two letters and a colon, a:b; is c:c meant?",
    ),
    ("luz", "  c:c e:e", "  c e:e", "  c e:e", "c: a pair is written as two letters and a colon, a:b; is c:c meant?"),
    ("luz", "  +:0\n", "  +:\n", "  +:\n", "+:: a pair is written as two letters and a colon, a:b; is +:0 meant?"),
    (
        "luz",
        "  c:c e:e",
        "  c:ce:e",
        "c:ce:e",
        "c:ce:e: a pair is written as two letters and a colon, a:b; is a blank missing?",
    ),
    (
        "luz",
        "  c:c e:e",
        "  c:c, e:e",
        "c:c,",
        "c:c,: a pair is written as two letters and a colon, a:b; pairs are divided by blanks alone",
    ),
    ("luz", "  c:c e:e", "  C:c e:e", "C:c", "pair C:c: C (U+0043) is no letter of the alphabet; is c (U+0063) meant?"),
    ("luz", "  +:0\n", "  +:O\n", "+:O", "pair +:O: O (U+004F) is no letter of the alphabet; is 0, the null, meant?"),
    (
        "luz",
        "  c:c e:e",
        "  \u{441}:c e:e",
        "\u{441}",
        "\u{441} (U+0441) is no letter of the alphabet; it looks like c (U+0063)",
    ),
    ("luz", "Z:c Z:z\n", "Z:c Z:z c:c\n", "Z:z c:c", "pair c:c is listed already"),
    ("luz", "  +:0\n", "  +:0 #:#\n", "#:#", "pair #:#: the boundary pairs with itself only, and is not listed"),
    ("luz", "  +:0\n", "  +:0 @:0\n", "@:0", "pair @:0: @ stands for any letter, which only a rule's column may"),
    ("luz", "  +:0\n", "  +:0 0:0\n", "0:0", "0:0 is a pair of two nulls"),
    (
        "spanish",
        "é:é",
        "e\u{301}:é",
        "e\u{301}",
        "a pair is written as two letters and a colon, a:b; as one character it is é (U+00E9)",
    ),
    ("luz", "  +:0\n", "  +:∅\n", "+:∅", "pair +:∅: ∅ (U+2205) is no letter of the alphabet; the null is written 0"),
];

const RULES: [Slip; 24] = [
    (
        "luz",
        "RULE \"Z becomes c before +e\"",
        "RULE Z",
        "RULE Z",
        "RULE takes a name in quotation marks, the count of states, and of columns; Z is not in quotation marks",
    ),
    (
        "luz",
        "RULE \"Z becomes c before +e\"",
        "RULE “Z”",
        "RULE “Z”",
        "; “ (U+201C) is not the plain quotation mark, \"",
    ),
    ("luz", "+e\" 5 5", "+e\" 5", "+e\" 5", "; a count is missing"),
    ("luz", "+e\" 5 5", "+e\" five 5", "five", "; five is no count"),
    ("luz", "RULE \"Z becomes c before +e\"", "RULE", "RULE 5", "; the name is missing"),
    (
        "quichua",
        "i lowered before a postvelar\" 6 5",
        "i lowered before a postvelar\" 5 6",
        "RULE \"i lowered before",
        "the counts are swapped: the table has 6 states, which come first, and 5 columns",
    ),
    ("luz", "     Z Z + e @\n", "     Z Z + e\n", "     Z Z + e\n", "4 lexical sides where the rule has 5 columns"),
    ("luz", "     c z 0 e @\n", "     c z 0 e @ @\n", "     c z 0 e", "6 surface sides where the rule has 5 columns"),
    (
        "quichua",
        "i i Ftr CPos @\n",
        "i i Ftr Cpos @\n",
        "Cpos",
        "no set is called Cpos; a side of a column is one character or the name of a set; is CPos meant?",
    ),
    (
        "quichua",
        "i i Ftr CPos @\n",
        "i i Frt CPos @\n",
        "Frt",
        "no set is called Frt; a side of a column is one character or the name of a set; is Ftr meant?",
    ),
    (
        "luz",
        "     Z Z + e @\n",
        "     Z:c Z:z + e @\n",
        "Z:c Z:z +",
        "no set is called Z:c; a side of a column is one character or the name of a set; a pair stands on two rows",
    ),
    (
        "luz",
        "     Z Z + e @\n",
        "     Z Z + E @\n",
        "     Z Z + E",
        "E (U+0045) is no letter of the alphabet, and no set is called so; is e (U+0065) meant?",
    ),
    (
        "luz",
        "     c z 0 e @\n",
        "     c z 0 e \"@\"\n",
        "\"@\"",
        "\"@\": a side of a column is one character or the name of a set, without quotation marks",
    ),
    ("luz", "  4: 3 2", "  4 3 2", "  4 3", "the row of state 4 begins with 4: if it is final, else 4., not with 4"),
    ("luz", "  4: 3 2", "  4:3 2", "  4:3", "the row of state 4 begins with 4: if it is final, else 4., not with 4:3"),
    (
        "luz",
        "  2: 3 2 4 1 1\n  3: 0",
        "  3: 0",
        "  3: 0",
        "the row of state 2 begins with 2: if it is final, else 2., not with 3:",
    ),
    ("luz", "  4: 3 2", "  4: 3 6", "  4: 3 6", "6: a next state is a number from 0 to 5"),
    (
        "luz",
        "  4: 3 2 1 0 1",
        "  4: 3 2 1 O 1",
        "1 O 1",
        "O: a next state is a number from 0 to 5; is the digit 0 meant?",
    ),
    ("luz", "  4: 3 2 1 0 1", "  4: 3 2 1 01", "1 01", "state 4: 4 next states where the rule has 5 columns"),
    ("luz", "  5. 0 0 0 1 0\n", "", "  4: 3", "4 rows where the rule has 5 states"),
    ("luz", "  5. 0 0 0 1 0\n", "  5. 0 0 0 1 0\n  6: 1 1 1 1 1\n", "  6: 1", "a row more than the rule's 5 states"),
    ("luz", "     c z 0 e @\n", "     c z 0 e z\n", "     Z Z + e @", "no column matches the pair"),
    (
        "luz",
        "     c z 0 e @\n",
        "     c c 0 e @\n",
        "     Z Z + e @",
        "for the pair Z:c columns 1 (Z:c) and 2 (Z:c) are equally narrow",
    ),
    (
        "luz",
        "     Z Z + e @\n",
        "     Z Z + e *\n",
        "e *",
        "* (U+002A) is no letter of the alphabet, and no set is called so; any letter is written @",
    ),
];

const LEXICONS: [Slip; 37] = [
    (
        "luz",
        "LEXICON Number",
        "LEXICON",
        "\nLEXICON\n",
        "LEXICON takes one name, without quotation marks, and none is here",
    ),
    (
        "luz",
        "LEXICON Noun",
        "LEXICON Noun stems",
        "LEXICON Noun",
        "LEXICON takes one name, without quotation marks, not Noun stems",
    ),
    ("luz", "LEXICON Noun", "LEXICON END", "LEXICON END", "END cannot name a lexicon"),
    ("luz", "LEXICON Noun", "LEXICON Number", "LEXICON Number\n  0", "a second lexicon Number; the first is in line"),
    ("luz", "luc  Number", "luc  Numer", "Numer ", "no lexicon is called Numer; is Number meant?"),
    ("luz", "luc  Number", "luc  number", "number", "no lexicon is called number; is Number meant?"),
    ("luz", "luc  Number", "luc  Case", "Case", "no lexicon is called Case; # in its place ends the word"),
    ("luz", "luc  Number  \"luc\"", "luc", "  luc\n", "the continuation is missing, and # ends the word"),
    (
        "luz",
        "luc  Number  \"luc\"",
        "luc  \"luc\"",
        "  luc  \"luc\"",
        "the continuation is missing before the gloss, and # ends the word",
    ),
    ("luz", "\"luc\"", "made up", "made up\n", "no lexicon is called made; is \"made up\" meant, a gloss?"),
    ("luz", "\"luc\"", "“luc”", "“luc”", "no lexicon is called “luc”; “ (U+201C) is not the plain quotation mark, \""),
    (
        "luz",
        "luc  Number  \"luc\"",
        "luc  Number  Noun bird",
        "bird",
        "no lexicon is called bird; is \"bird\" meant, a gloss?",
    ),
    ("luz", "luc  Number  \"luc\"", "luc  Number  Nuon", "Nuon", "no lexicon is called Nuon; is Noun meant?"),
    (
        "luz",
        "luc  Number  \"luc\"",
        "luc  Number  Number",
        "Number  Number",
        "Number stands twice among the continuations",
    ),
    ("luz", "luc  Number  \"luc\"", "luc  # Number #", "# Number #", "# stands twice among the continuations"),
    ("luz", "luc  Number  \"luc\"", "luc  Number 7 Noun", "7 Noun", "no lexicon is called 7; a gloss stands last"),
    (
        "luz",
        "luc  Number  \"luc\"",
        "luc  Number \"luc\" Noun",
        "\"luc\" Noun",
        "; Noun is one too many, after the gloss",
    ),
    (
        "quichua_ways",
        "+man   SuffixGen",
        "+man   SuffixGne",
        "SuffixGne",
        "no lexicon is called SuffixGne; is SuffixGen meant?",
    ),
    ("quichua_ways", "SuffixTop    Top #", "SuffixTop    Topp #", "Topp", "no lexicon is called Topp; is Top meant?"),
    (
        "quichua_ways",
        "SuffixTop    Top #",
        "SuffixTop    Top Top",
        "Top Top",
        "Top is in ALTERNATION SuffixTop already",
    ),
    ("quichua_ways", "SuffixTop    Top #", "SuffixTop    # Top #", "# Top #", "# is in ALTERNATION SuffixTop already"),
    (
        "quichua_ways",
        "SuffixTop    Top #",
        "SuffixTop    \"Top\" #",
        "\"Top\" #",
        "\"Top\": a lexicon's name stands without quotation marks",
    ),
    ("quichua_ways", "SuffixTop    Top #", "SuffixTop", "SuffixTop\n", "ALTERNATION SuffixTop names no lexicon"),
    (
        "quichua_ways",
        "SuffixTop    Top #",
        "SuffixTop    SuffixGen",
        "SuffixTop    Su",
        "SuffixGen is an ALTERNATION, and an ALTERNATION names lexicons alone",
    ),
    (
        "quichua_ways",
        "ALTERNATION SuffixTop ",
        "ALTERNATION Top ",
        "ALTERNATION Top ",
        "ALTERNATION Top: a lexicon is called so, in line 731; an entry can name the lexicon itself",
    ),
    (
        "quichua_ways",
        "ALTERNATION SuffixTop ",
        "ALTERNATION SuffixGen ",
        "SuffixGen    Top",
        "a second ALTERNATION SuffixGen; the first is in line",
    ),
    (
        "quichua_ways",
        "ALTERNATION SuffixTop    Top #",
        "ALTERNATION",
        "ALTERNATION\n",
        "ALTERNATION takes a name, without quotation marks, and then lexicons",
    ),
    ("luz", "\"luc\"", "70000", "70000", "gloss 70000: a gloss is a number from 0 to 65535"),
    ("luz", "\"luc\"", "\"luc", "\"luc\n", "a quotation mark without its partner in the same line"),
    ("luz", "luc  Number", "luk  Number", "luk", "form luk: k (U+006B) is no letter of the alphabet"),
    (
        "luz",
        "luc  Number",
        "Luc  Number",
        "  Luc",
        "form Luc: L (U+004C) is no letter of the alphabet; is l (U+006C) meant?",
    ),
    (
        "luz",
        "luZ  Number",
        "luz  Number",
        "  luz  N",
        "form luz: no pair has z (U+007A) on its lexical side; it is a surface side only, as in Z:z",
    ),
    (
        "spanish",
        "  bloque        Noun1",
        "  blo\u{301}que   Noun1",
        "\u{301}",
        "U+0301) is no letter of the alphabet; as one character it is ó (U+00F3)",
    ),
    (
        "luz",
        "  0    #       \"sin",
        "  O    #       \"sin",
        "  O ",
        "form O: O (U+004F) is no letter of the alphabet; is 0, the null, meant?",
    ),
    (
        "luz",
        "+es  #",
        "+e0s  #",
        "+e0s",
        "form +e0s: 0 is the null; alone it is an empty form, in a form it cannot stand",
    ),
    (
        "luz",
        "luc  Number",
        "lucluclucluce  Number",
        "lucluclucluce",
        "form lucluclucluce has 13 letters; allowed are 12",
    ),
    ("luz", "luc  Number", "\"luc\"  Number", "\"luc\"  Number", "; a form stands without quotation marks"),
];

/// The line in which a text stands, alone; at its beginning or end a line end may be asked for.
fn line_of(mark: &str, text: &str) -> usize {
    let text = format!("\n{text}");
    let found: Vec<_> = text.match_indices(mark).collect();
    assert_eq!(found.len(), 1, "{mark:?} stands once");
    let begin = found[0].0 + usize::from(mark.starts_with('\n'));
    text[..begin].matches('\n').count()
}

fn is_told(folder: &std::path::Path, &(name, from, to, mark, told): &Slip) {
    let text = edited(&sample(name), from, to);
    fs::write(folder.join("grammar.txt"), &text).unwrap();
    let ran = run(folder, &["check", "grammar.txt"]);
    assert_eq!((ran.code, ran.stdout.as_str()), (Some(1), "faulty\n"), "{from:?} to {to:?}");
    let first = ran.stderr.lines().next().unwrap();
    let line = format!("grammar.txt:{}: ", line_of(mark, &text));
    assert!(first.starts_with(&line) && first.contains(told), "{from:?} to {to:?} in line {line}\n{first}");
}

fn are_told(test: &str, slips: &[Slip]) {
    let folder = scratch(test);
    for slip in slips {
        is_told(&folder, slip);
    }
}

#[test]
fn in_keywords() {
    are_told("slips-keywords", &KEYWORDS);
}

#[test]
fn in_sections() {
    are_told("slips-sections", &SECTIONS);
}

#[test]
fn in_letters_and_sets() {
    are_told("slips-letters", &LETTERS);
}

#[test]
fn in_pairs() {
    are_told("slips-pairs", &PAIRS);
}

#[test]
fn in_rules() {
    are_told("slips-rules", &RULES);
}

#[test]
fn in_lexicons() {
    are_told("slips-lexicons", &LEXICONS);
}

/// Sixty kinds are asked for, and no two rows are one.
#[test]
fn all_are_different() {
    let all = [&KEYWORDS[..], &SECTIONS, &LETTERS, &PAIRS, &RULES, &LEXICONS].concat();
    let mut kinds: Vec<_> = all.iter().map(|&(name, _, to, _, told)| (name, to, told)).collect();
    kinds.sort();
    kinds.dedup();
    assert_eq!(kinds.len(), all.len());
    assert!(kinds.len() > 100, "{}", kinds.len());
}

/// A keyword's slip hides what it makes of the rest.
#[test]
fn a_keyword_is_told_alone() {
    let folder = scratch("slips-alone");
    fs::write(folder.join("grammar.txt"), edited(&sample("spanish"), "LEXICON Noun1", "lexicon Noun1")).unwrap();
    assert_eq!(run(&folder, &["check", "grammar.txt"]).stderr.lines().count(), 1);
}

/// Words like keywords are forms and names of sets where they stand in their places, and no slips.
#[test]
fn words_like_keywords() {
    let letters = "u z Z a d n r y L p i x o m f\n";
    let text = edited(&sample("luz"), "u z Z\n", letters)
        .replace("  +:0\n", "  +:0 a:a d:d n:n r:r y:y p:p i:i x:x o:o m:m f:f\n");
    let text = edited(
        &text,
        "  luc  Number",
        "  end Numer\n  norm Numer\n  form Number\n  any Number\n  rule Number\n  pairs Number\n  lexicon Number \"lexicon\"\n  luc Number",
    );
    let folder = scratch("slips-forms");
    fs::write(folder.join("grammar.txt"), &text).unwrap();
    let ran = run(&folder, &["check", "grammar.txt"]);
    let line = line_of("end Numer\n", &text);
    let told = |line: usize| format!("grammar.txt:{line}: no lexicon is called Numer; is Number meant?\n");
    assert_eq!(ran.stderr, told(line) + &told(line + 1));
    fs::write(folder.join("grammar.txt"), text.replace(" Numer\n", " Number\n")).unwrap();
    let ran = run(&folder, &["check", "grammar.txt"]);
    assert_eq!(ran.code, Some(0), "{}", ran.stderr);
}

#[test]
fn other_encodings() {
    let folder = scratch("slips-encodings");
    let text = sample("spanish");
    let latin: Vec<u8> = text.chars().map(|c| u8::try_from(u32::from(c)).unwrap_or(b'?')).collect();
    let utf_16: Vec<u8> = [0xFEFF].into_iter().chain(text.encode_utf16()).flat_map(u16::to_le_bytes).collect();
    let line = 1 + text.lines().position(|line| !line.is_ascii()).unwrap();
    for (bytes, told) in [
        (
            latin,
            format!(
                "grammar.txt:{line}: a byte that is not UTF-8, E0, which in Latin-1 is à; save the file as UTF-8\n"
            ),
        ),
        (utf_16, "grammar.txt:1: a byte that is not UTF-8, FF: this is UTF-16; save the file as UTF-8\n".to_string()),
    ] {
        fs::write(folder.join("grammar.txt"), bytes).unwrap();
        let ran = run(&folder, &["check", "grammar.txt"]);
        assert_eq!((ran.code, ran.stdout.as_str(), ran.stderr), (Some(1), "faulty\n", told));
    }
}
