//! Several continuations of an entry: what texts say, the bytes that come of it, and which form of the image is written.

mod support;

use headwords_command::{decode, list_entries, read_grammar, read_grammar_as, sealed_image, written, Form};
use support::check::{counts, entries, ways};
use support::{accepted, assembled, edited, sample};

/// luz where both stems may end, and go on to Number.
const STEMS: &str = "\
BOUNDARY #
NULL 0
ANY @
ALPHABET + c e l s u z Z
PAIRS +:0 c:c e:e l:l s:s u:u Z:c Z:z
LEXICON Noun
luZ # Number \"luz\"
luc # Number \"luc\"
LEXICON Number
+es # \"plural\"
LEXICON Case
+ul #
END
";

fn with(from: &str, to: &str) -> String {
    edited(STEMS, from, to)
}

/// The ways of entry 0.
fn first_ways(text: &str) -> (bool, Vec<usize>) {
    let image = accepted(text);
    ways(&image, entries(&image)[0])
}

fn form(text: &str) -> usize {
    counts(&accepted(text)).form
}

#[test]
fn the_bytes_of_an_entry() {
    let image = accepted(&with("luZ # Number \"luz\"", "luZ Number # Case 500"));
    let entry = entries(&image)[0];
    // Length, twelve letters, mark, gloss, eight bytes of bits.
    let right = [3, 5, 7, 9, 0, 0, 0, 0, 0, 0, 0, 0, 0, 1, 244, 1, 6, 0, 0, 0, 0, 0, 0, 0];
    assert_eq!(entry, right);
    assert_eq!(ways(&image, entries(&image)[2]), (true, vec![]));
    assert_eq!(image.len(), 5 * 512);
}

#[test]
fn bit_b_of_byte_j_is_lexicon_8j_plus_b() {
    let lexicons: String = (1..64).map(|number| format!("LEXICON x{number}\n+ul #\n")).collect();
    let text = format!("{}luZ x1 x7 x8 x63\n{lexicons}END\n", &STEMS[..STEMS.find("luZ #").unwrap()]);
    let image = accepted(&text);
    assert_eq!(entries(&image)[0][13..], [0, 0, 0, 0b1000_0010, 1, 0, 0, 0, 0, 0, 128]);
}

#[test]
fn names_and_alternations_say_the_same() {
    let right = accepted(&with("luZ # Number", "luZ # Number Case"));
    for (line, choices) in [
        ("luZ Case Number #", ""),
        ("luZ All", "ALTERNATION All # Number Case\n"),
        ("luZ All", "ALTERNATION All Case\n  Number ; the plural\n  #\n"),
        ("luZ Endings #", "ALTERNATION Endings Number Case\n"),
        ("luZ # Endings", "ALTERNATION Endings Number Case\n"),
        // A lexicon that comes by two names is one way.
        ("luZ All Endings Case", "ALTERNATION All # Number\nALTERNATION Endings Number Case\n"),
    ] {
        let text = with("luZ # Number", line);
        let before = edited(&text, "LEXICON Noun", &format!("{choices}LEXICON Noun"));
        assert!(accepted(&before) == right, "{before}");
        let after = edited(&text, "END\n", &format!("{choices}END\n"));
        assert!(accepted(&after) == right, "{after}");
    }
}

#[test]
fn a_number_at_the_end_is_the_gloss() {
    let seven = |entry: &str| with("luZ # Number \"luz\"", entry).replace("LEXICON Case", "LEXICON 7");
    assert_eq!(first_ways(&seven("luZ # 7")), (true, vec![]));
    assert_eq!(first_ways(&seven("luZ 7")), (false, vec![2]));
    assert_eq!(first_ways(&seven("luZ # 7 7")), (true, vec![2]));
    assert_eq!(first_ways(&seven("luZ # 7 \"\"")), (true, vec![2]));
    let listed = list_entries(&read_grammar(seven("luZ # 7 7").as_bytes()).unwrap());
    assert_eq!(listed.lines().next(), Some("0\tNoun\tluZ\t# 7\t7\t"));
}

#[test]
fn form_1_is_written_where_it_serves() {
    assert_eq!(form(STEMS), 2);
    let one = STEMS.replace("# Number", "Number");
    assert_eq!(form(&one), 1);
    assert_eq!(form(&edited(&one, "luc Number", "luc # Number")), 2);
    // An ALTERNATION may have one way, and an entry name one twice over.
    let single = one.replace("Number \"", "Next \"").replace("LEXICON Noun", "ALTERNATION Next Number\nLEXICON Noun");
    assert!(accepted(&single) == accepted(&one));
    let twice = edited(&single, "luZ Next", "luZ Next Number");
    assert!(accepted(&twice) == accepted(&one));
}

#[test]
fn the_form_that_is_asked_for_is_written() {
    let one = STEMS.replace("# Number", "Number");
    let asks = |text: &str, form: usize| edited(text, "ANY @", &format!("ANY @\nFORM {form}"));
    assert_eq!((form(&asks(&one, 1)), form(&asks(&one, 2)), form(&asks(STEMS, 2))), (1, 2, 2));
    let as_form = |text: &str, asked| {
        let grammar = read_grammar_as(text.as_bytes(), Some((asked, "--form"))).map_err(|faults| faults.by_line());
        grammar.map(|grammar| sealed_image(&grammar))
    };
    // What is asked for beside the text goes before what the text asks for.
    assert!(as_form(&asks(&one, 2), Form::One).unwrap() == accepted(&one));
    assert!(as_form(&asks(&one, 1), Form::Two).unwrap() == accepted(&asks(&one, 2)));
    assert_eq!(as_form(STEMS, Form::One).unwrap_err().len(), 2);
}

#[test]
fn form_1_where_an_entry_has_several_ways_is_told_by_its_line() {
    let told = |text: &str| -> Vec<(usize, String)> {
        assembled(text).unwrap_err().into_iter().map(|fault| (fault.line, fault.what)).collect()
    };
    let what = "2 continuations, # Number; an image of form 1, which FORM in line 4 asks for, has one for each entry";
    let text = with("ANY @", "ANY @\nFORM 1");
    assert_eq!(told(&text), [(8, what.to_string()), (9, what.to_string())]);
    for (head, line, found) in [
        ("FORM", 4, "and none is here"),
        ("FORM 3", 4, "not 3"),
        ("FORM \"2\"", 4, "not 2"),
        ("FORM 2 1", 4, "and 1 is one too many"),
        ("FORM\n2\n x", 6, "not x"),
    ] {
        let text = with("ANY @", &format!("ANY @\n{head}"));
        assert_eq!(told(&text), [(line, format!("FORM takes 1 or 2, the form of the image, {found}"))]);
    }
}

/// A grammar of form 2 with so many entries and rules, and a set or none; entry 0 has two ways on.
fn many(entries: usize, rules: usize, set: &str) -> String {
    let rules = "RULE \"r\" 1 1\n@\n@\n1: 1\n".repeat(rules);
    let text = with("LEXICON Noun\n", &format!("{rules}LEXICON Noun\n")).replace("PAIRS", &format!("{set}PAIRS"));
    edited(&text, "+ul #\n", &"+ul #\n".repeat(entries - 3))
}

#[test]
fn entries_that_form_2_has_room_for() {
    for (room, rules, set) in
        [(2_604, 0, ""), (2_583, 1, ""), (2_583, 0, "SUBSET V e u\n"), (1_911, 32, "SUBSET V e u\n")]
    {
        assert_eq!(accepted(&many(room, rules, set)).len(), 128 * 512);
        let over = many(room + 3, rules, set);
        let faults = assembled(&over).unwrap_err();
        let first_many = 1 + over.lines().position(|line| line.starts_with("luZ")).unwrap();
        let first_over = 1 + over.lines().position(|line| line.starts_with("+ul")).unwrap() + room - 3;
        let what = format!("{} entries; an image of form 2, which the entry in line {first_many} needs, has room for {room} with this grammar's rules", room + 3);
        assert_eq!(
            faults.iter().map(|fault| (fault.line, fault.what.as_str())).collect::<Vec<_>>(),
            [(first_over, what.as_str())]
        );
        // With one way on for each entry, form 1 has room for all.
        let one = over.replace("# Number", "Number");
        assert_eq!(counts(&accepted(&one)).form, 1);
        let asked = assembled(&edited(&one, "ANY @", "ANY @\nFORM 2")).unwrap_err();
        assert_eq!(asked.len(), 1);
        assert!(asked[0].what.contains("which FORM in line 4 asks for, has room for"), "{}", asked[0].what);
    }
}

/// What a grammar is written as, and that this gives its image again.
fn text_of(image: &[u8]) -> String {
    let text = written(&decode(image)).unwrap();
    assert!(assembled(&text).unwrap() == image, "{text}");
    text
}

#[test]
fn images_of_form_2_there_and_back() {
    assert!(!text_of(&accepted(STEMS)).contains("FORM"));
    let quichua = accepted(&sample("quichua_ways"));
    assert!(!text_of(&quichua).contains("FORM"));
    for name in ["luz", "quichua"] {
        let grammar = read_grammar_as(sample(name).as_bytes(), Some((Form::Two, "--form"))).unwrap();
        let image = sealed_image(&grammar);
        assert_eq!((counts(&image).form, support::check::refusal(&image)), (2, None));
        assert!(text_of(&image).contains("\nFORM 2\n"), "{name}");
        let again = written(&grammar).unwrap();
        assert!(assembled(&again).unwrap() == image, "{name}");
    }
    assert!(!text_of(&accepted(&sample("luz"))).contains("FORM"));
}

#[test]
fn an_alternation_is_written_where_an_entry_has_just_its_ways() {
    let text = with("luZ # Number", "luZ All").replace("luc # Number", "luc # Case");
    let text = edited(&text, "LEXICON Noun", "ALTERNATION All Case # Number\nALTERNATION One Case\nLEXICON Noun");
    let grammar = read_grammar(text.as_bytes()).unwrap();
    let again = written(&grammar).unwrap();
    let right = "\nALTERNATION All # Number Case\nALTERNATION One Case\n\nLEXICON Noun\n  luZ All    \"luz\"\n  luc # Case \"luc\"\n";
    assert!(again.contains(right), "{again}");
    assert!(assembled(&again).unwrap() == sealed_image(&grammar));
}

#[test]
fn a_lexicon_whose_name_is_a_number_is_not_taken_for_a_gloss() {
    let text = with("luZ # Number \"luz\"", "luZ # 7 \"\"").replace("LEXICON Case", "LEXICON 7");
    let grammar = read_grammar(text.as_bytes()).unwrap();
    let again = written(&grammar).unwrap();
    assert!(
        again.contains("\n  luZ # 7      \"\"\n") && assembled(&again).unwrap() == sealed_image(&grammar),
        "{again}"
    );
}
