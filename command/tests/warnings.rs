//! What is told of a text that is taken in all the same.

mod support;

use headwords_command::{read_grammar, warnings, Fault};
use std::fs;
use std::path::Path;
use support::{assembled, edited, run, sample, scratch, SAMPLES};

/// What is told of luz with one place changed: lines, and what stands after `warning: `.
fn told_of(from: &str, to: &str) -> Vec<(usize, String)> {
    let told = told(&edited(&sample("luz"), from, to));
    told.into_iter().map(|fault| (fault.line, fault.what.strip_prefix("warning: ").unwrap().to_string())).collect()
}

/// The line of luz in which a text stands.
fn line_of(text: &str) -> usize {
    1 + sample("luz").lines().position(|line| line.contains(text)).unwrap()
}

/// luz, whose boundary takes the fifth column, with another row for state 1.
fn with_row_one(row: &str) -> String {
    let text = sample("luz");
    assert_eq!(text.matches("  1: 3 2 1 1 1\n").count(), 1);
    text.replace("  1: 3 2 1 1 1\n", &format!("  1: {row}\n"))
}

fn told(text: &str) -> Vec<Fault> {
    warnings(&read_grammar(text.as_bytes()).unwrap())
}

#[test]
fn a_rule_that_fails_at_the_front_is_told_and_the_image_is_made() {
    let folder = scratch("warnings-front");
    let text = with_row_one("3 2 1 1 0");
    fs::write(folder.join("luz.txt"), &text).unwrap();
    let ran = run(&folder, &["assemble", "luz.txt", "luz.img"]);
    let line = 1 + text.lines().position(|line| line.ends_with("3 2 1 1 0")).unwrap();
    let words = "rule \"Z becomes c before +e\" goes from state 1 to 0 by #:#, which comes first in every word: no word has a reading";
    assert_eq!(ran.stderr, format!("luz.txt:{line}: warning: {words}\n"));
    assert_eq!((ran.code, ran.stdout.as_str()), (Some(0), ""));
    assert_eq!(fs::read(folder.join("luz.img")).unwrap(), assembled(&text).unwrap());
}

#[test]
fn only_the_boundary_pair_in_state_1_counts() {
    // A 0 in another column of row 1; rows 3 and 5 of the sample have a 0 in the boundary's column.
    for row in ["0 2 1 1 1", "3 0 1 1 1", "3 2 0 1 1", "3 2 1 0 1", "0 0 0 0 1"] {
        let told = told(&with_row_one(row));
        assert!(!told.iter().any(|fault| fault.what.contains("goes from state 1 to 0")), "{told:?}");
    }
}

#[test]
fn the_boundary_may_have_a_column_of_its_own() {
    let trial = |name: &str| {
        let trials = Path::new(env!("CARGO_MANIFEST_DIR")).join("../tests/trials");
        fs::read_to_string(trials.join(format!("{name}.txt"))).unwrap()
    };
    let dead = told(&trial("dead_front"));
    assert_eq!(dead.len(), 1);
    assert!(dead[0].what.starts_with("warning: rule \"dead at the front\" goes from state 1 to 0 by #:#"));
    assert_eq!(told(&trial("front")), []);
}

/// luz with other lexicons.
fn with_lexicons(lexicons: &str) -> String {
    let text = sample("luz");
    let at = text.find("LEXICON Noun\n").unwrap();
    format!("{}{lexicons}END\n", &text[..at])
}

/// What is told of lexicons, by the place of its line among theirs, from 1, and the lexicon that it names.
fn circles(lexicons: &str) -> Vec<(usize, String)> {
    let before = sample("luz").lines().position(|line| line == "LEXICON Noun").unwrap();
    let name = |fault: &Fault| {
        let rest = fault.what.strip_prefix("warning: lexicon ")?;
        let named =
            rest.strip_suffix(" leads back to itself by empty forms alone: a path may go round without a letter");
        named.map(str::to_string)
    };
    let told = told(&with_lexicons(lexicons));
    told.iter().filter_map(|fault| Some((fault.line - before, name(fault)?))).collect()
}

#[test]
fn a_circle_of_empty_entries_is_told_and_the_image_is_made() {
    let folder = scratch("warnings-circle");
    let text = with_lexicons("LEXICON A\nluc #\n0 A\n");
    fs::write(folder.join("luz.txt"), &text).unwrap();
    let ran = run(&folder, &["assemble", "luz.txt", "luz.img"]);
    let line = text.lines().count() - 1;
    let words = "lexicon A leads back to itself by empty forms alone: a path may go round without a letter";
    assert_eq!(ran.stderr, format!("luz.txt:{line}: warning: {words}\n"));
    assert_eq!((ran.code, ran.stdout.as_str()), (Some(0), ""));
    assert_eq!(fs::read(folder.join("luz.img")).unwrap(), assembled(&text).unwrap());
}

#[test]
fn a_circle_is_told_once_at_its_first_entry() {
    let one = |line, name: &str| vec![(line, name.to_string())];
    assert_eq!(circles("LEXICON A\n0 A\n0 A\n"), one(2, "A"));
    assert_eq!(circles("LEXICON A\nluc #\nluc B\n0 B\nLEXICON B\nluc #\n0 A\n"), one(4, "A"));
    // A leads into the circle of B and C, and is not in it.
    assert_eq!(circles("LEXICON A\n0 B\nLEXICON B\n0 D\n0 C\nLEXICON C\n0 B\n0 C\nLEXICON D\nluc #\n"), one(5, "B"));
    let two = circles("LEXICON A\n0 A\n0 B\nLEXICON B\nluc #\n0 B\n");
    assert_eq!(two, [one(2, "A"), one(6, "B")].concat());
}

#[test]
fn a_circle_by_one_of_several_ways() {
    let one = |line, name: &str| vec![(line, name.to_string())];
    assert_eq!(circles("LEXICON A\nluc #\n0 # A\n"), one(3, "A"));
    assert_eq!(circles("LEXICON A\n0 B C\nLEXICON B\nluc #\nLEXICON C\nluc #\n0 # B A\n"), one(2, "A"));
    assert_eq!(circles("LEXICON A\nluc # A B\n0 # B\nLEXICON B\n0 #\nluc A #\n"), []);
}

#[test]
fn a_letter_or_an_end_breaks_a_circle() {
    assert_eq!(circles("LEXICON A\nluc A\n0 #\n"), []);
    assert_eq!(circles("LEXICON A\n0 B\nLEXICON B\nluc A\n0 #\n"), []);
    assert_eq!(circles("LEXICON A\n0 B\n0 C\nLEXICON B\n0 C\nLEXICON C\n0 #\n"), []);
}

#[test]
fn a_lexicon_that_is_never_reached() {
    let what = "lexicon More is never reached: no entry leads to it from the first lexicon";
    let line = line_of("\"plural\"") + 2;
    assert_eq!(told_of("\nEND", "\nLEXICON More\nluc #\nEND"), [(line, what.to_string())]);
    // One that leads to itself, and one that only such a one leads to.
    let both = told_of("\nEND", "\nLEXICON More\nluc More\nluc Last\nLEXICON Last\nluc #\nEND");
    assert_eq!(both, [(line, what.to_string()), (line + 3, what.replace("More", "Last"))]);
}

#[test]
fn lexicons_by_several_ways() {
    let more = "\nLEXICON More\n  luc Last\nLEXICON Last\n  luc #\nEND";
    let by = |ways: &str| told(&edited(&edited(&sample("luz"), "\nEND", more), "luc  Number", &format!("luc  {ways}")));
    assert_eq!(by("Number More"), []);
    assert_eq!(by("# More"), []);
    assert_eq!(by("# Number").len(), 2, "More and Last are never reached");
    // An entry that ends and goes on ends its lexicon.
    let text = edited(&sample("luz"), "  0    #       \"singular\"\n  +es  #       \"plural\"", "  +es  # Number");
    assert_eq!(told(&text), []);
}

#[test]
fn an_alternation_that_no_entry_names() {
    let what = "ALTERNATION N is named by no entry";
    let line = line_of("LEXICON Noun");
    let unnamed = told_of("LEXICON Noun", "ALTERNATION N # Number\nLEXICON Noun");
    assert_eq!(unnamed, [(line, what.to_string())]);
    let text = edited(&sample("luz"), "LEXICON Noun", "ALTERNATION N # Number\nLEXICON Noun");
    assert_eq!(told(&edited(&text, "luc  Number", "luc  N")), []);
}

#[test]
fn a_lexicon_that_no_word_ends_after() {
    let more = told_of("\nEND", "\nLEXICON More\nluc More\nEND");
    assert_eq!(more.len(), 1, "it is not reached, which is enough");
    let ended = |lexicon: &str| format!("no word ends in lexicon {lexicon} or in one that it leads to");
    let text = edited(&sample("luz"), "  0    #       \"singular\"\n  +es  #       \"plural\"", "  +es  Number");
    let told = told(&text);
    let lines: Vec<(usize, &str)> = told.iter().map(|fault| (fault.line, fault.what.as_str())).collect();
    let right =
        ["Noun", "Number"].map(|name| (line_of(&format!("LEXICON {name}")), format!("warning: {}", ended(name))));
    assert_eq!(lines, right.each_ref().map(|(line, what)| (*line, what.as_str())));
}

#[test]
fn a_lexicon_without_entries() {
    let text = edited(&sample("luz"), "  +es  #       \"plural\"\n", "  +es  More\nLEXICON More\n");
    let told = told(&text);
    assert_eq!(told.len(), 1);
    assert_eq!(told[0].what, "warning: lexicon More has no entries: no word goes through it");
}

#[test]
fn a_state_that_is_never_reached() {
    let rule = "rule \"Z becomes c before +e\"";
    let never = told_of("  2: 3 2 4 1 1\n", "  2: 3 2 1 1 1\n");
    assert_eq!(never, [(line_of("4: 3 2 1 0 1"), format!("{rule}: state 4 is never reached"))]);
    // By a column that no pair picks, a state is not reached either.
    let text =
        edited(&sample("luz"), "5 5\n     Z Z + e @\n     c z 0 e @\n", "6 6\n     Z Z + e @ z\n     c z 0 e @ c\n");
    let rows = ["1: 3 2 1 1 1", "2: 3 2 4 1 1", "3: 0 0 5 0 0", "4: 3 2 1 0 1"];
    let text = rows.iter().fold(text, |text, row| edited(&text, row, &format!("{row} 6")));
    let text = edited(&text, "  5. 0 0 0 1 0\n", "  5. 0 0 0 1 0 6\n  6: 1 1 1 1 1 1\n");
    let what: Vec<String> = told(&text).into_iter().map(|fault| fault.what).collect();
    let column = format!("warning: {rule}: column 6 (z:c) matches no pair, and is never picked");
    assert_eq!(what, [column, format!("warning: {rule}: state 6 is never reached")]);
}

/// The last state of a word counts as reached: in 2 this rule only ends.
#[test]
fn a_state_that_only_the_end_reaches() {
    let rule = "RULE \"end\" 3 2\n # @\n # @\n 1. 3 1\n 2: 0 0\n 3. 2 3\nLEXICON Noun\n";
    assert_eq!(told_of("LEXICON Noun\n", rule), []);
}

#[test]
fn a_rule_that_no_word_can_pass() {
    let rule = "RULE \"end\" 3 2\n # @\n # @\n 1: 3 1\n 2: 0 0\n 3. 0 3\nLEXICON Noun\n";
    let what = "rule \"end\" comes to no final state at the end of a word: no word has a reading";
    assert_eq!(told_of("LEXICON Noun\n", rule), [(line_of("LEXICON Noun"), what.to_string())]);
}

/// A word has a letter or more, so that one that is refused at its first pair, or may only end before it, is none.
#[test]
fn a_rule_that_only_no_letters_pass() {
    for (rows, what) in [
        ("1 2\n # @\n # @\n 1: 1 0", "refuses every pair"),
        ("3 2\n # @\n # @\n 1. 2 0\n 2: 2 3\n 3. 3 3", "comes to no final state at the end of a word"),
    ] {
        let rule = format!("RULE \"end\" {rows}\nLEXICON Noun\n");
        let what = format!("rule \"end\" {what}: no word has a reading");
        assert_eq!(told_of("LEXICON Noun\n", &rule), [(line_of("LEXICON Noun"), what)]);
    }
}

#[test]
fn a_column_that_a_narrower_one_hides() {
    // Z:@ matches Z:c and Z:z, and each has a column of its own.
    let text =
        edited(&sample("luz"), "5 5\n     Z Z + e @\n     c z 0 e @\n", "5 6\n     Z Z + e @ Z\n     c z 0 e @ @\n");
    let rows = ["1: 3 2 1 1 1", "2: 3 2 4 1 1", "3: 0 0 5 0 0", "4: 3 2 1 0 1", "5. 0 0 0 1 0"];
    let text = rows.iter().fold(text, |text, row| edited(&text, row, &format!("{row} 1")));
    let told = told(&text);
    assert_eq!(told.len(), 1);
    let what = "column 6 (Z:@) is never picked: each pair that it matches has a narrower one";
    assert_eq!(told[0].what, format!("warning: rule \"Z becomes c before +e\": {what}"));
    assert_eq!(told[0].line, line_of("Z Z + e @"));
}

#[test]
fn what_stands_twice() {
    let double = told_of("  luc  Number", "  luZ  Number  \"luz\"\n  luc  Number");
    let first = format!("entry 1 (luZ) is as entry 0 in line {}", line_of("  luZ  Number"));
    let what = format!("{first}: each word that has it has its readings twice");
    assert_eq!(double, [(line_of("  luc  Number"), what)]);
    // Another gloss, in words or by number, makes it another entry; so does another continuation.
    for other in ["luZ Number \"light\"", "luZ Number 7", "luZ Number", "luZ # \"luz\""] {
        assert_eq!(told_of("  luc  Number", &format!("  {other}\n  luc  Number")), []);
    }
    let numbered = told_of("  luc  Number", "  luZ  Number 7\n luZ Number 7\n  luc  Number");
    assert_eq!(numbered.len(), 1);
    // Of two that say the same, one may go on where the other does not; not where both do.
    let other = told_of("  luc  Number", "  luZ  # Noun \"luz\"\n  luc  Number");
    assert_eq!(other, []);
    let meets = told_of("  luc  Number", "  luZ  # Number \"luz\"\n  luc  Number");
    let what = format!("{first}, and both go on to Number: each word that has it has its readings twice there");
    assert_eq!(meets, [(line_of("  luc  Number"), what)]);
    let text = sample("luz");
    let rule = &text[text.find("RULE").unwrap()..text.find("LEXICON Noun").unwrap()];
    let again = told_of("LEXICON Noun\n", &format!("{}LEXICON Noun\n", rule.replace("before +e", "again")));
    let what = "rule \"Z becomes c again\" has the table of rule \"Z becomes c before +e\"";
    assert_eq!(again, [(line_of("LEXICON Noun"), format!("{what} in line {}", line_of("RULE")))]);
}

#[test]
fn letters_in_no_pair_and_sets_in_no_rule() {
    let what = "letter x (U+0078) is in no pair: no form and no word has it";
    assert_eq!(told_of("u z Z", "u z Z x"), [(line_of("u z Z"), what.to_string())]);
    let set = told_of("PAIRS ", "SUBSET V e u\nPAIRS ");
    assert_eq!(set, [(line_of("PAIRS"), "set V is named by no rule".to_string())]);
    // Sets may be named in another order than they stand in, and on either side.
    let text = edited(&sample("luz"), "PAIRS ", "SUBSET V e\nSUBSET W z\nSUBSET X c\nPAIRS ");
    let text = edited(&text, "     Z Z + e @\n     c z 0 e @\n", "     Z Z + V @\n     X W 0 e @\n");
    assert_eq!(told(&text), []);
}

#[test]
fn twenty_warnings_are_told_and_the_rest_is_counted() {
    let folder = scratch("warnings-many");
    let text =
        edited(&sample("luz"), "  luc  Number", &format!("{}  luc  Number", "  luZ  Number  \"luz\"\n".repeat(25)));
    fs::write(folder.join("luz.txt"), text).unwrap();
    for command in [&["assemble", "luz.txt", "luz.img"][..], &["check", "luz.txt"]] {
        let ran = run(&folder, command);
        assert_eq!((ran.code, ran.stderr.lines().count()), (Some(0), 21));
        assert!(ran.stderr.ends_with("luz.txt:0: 5 warnings more\n"));
    }
}

#[test]
fn the_samples_have_no_warnings() {
    for name in SAMPLES {
        assert_eq!(told(&sample(name)), []);
    }
}
