//! Written rules: how they are numbered for the library, what is told of slips, and how tables are held against them.

mod support;

use std::fs;
use std::path::Path;
use support::{anywhere, run, sample_path, scratch, Ran, SAMPLES};

/// Runs `headwords rules` on a grammar with rules that are arguments.
fn rules(grammar: &Path, rules: &[&str], others: &[&str]) -> Ran {
    let grammar = grammar.to_str().unwrap();
    let mut arguments = vec!["rules", grammar];
    rules.iter().for_each(|rule| arguments.extend(["--rule", rule]));
    arguments.extend(others);
    run(anywhere(), &arguments)
}

fn numbered(grammar: &Path, rule: &str) -> String {
    let ran = rules(grammar, &[rule], &["--numbers"]);
    assert_eq!((ran.code, ran.stderr.as_str()), (Some(0), ""), "{rule}");
    ran.stdout
}

/// What is told of a rule's only fault.
fn told(grammar: &Path, rule: &str) -> String {
    let ran = rules(grammar, &[rule], &["--numbers"]);
    assert_eq!((ran.code, ran.stdout.as_str()), (Some(1), ""), "{rule}");
    ran.stderr.strip_prefix("--rule:1: ").and_then(|told| told.strip_suffix('\n')).unwrap().to_string()
}

fn ran(code: i32, stdout: &str, stderr: &str) -> Ran {
    Ran { code: Some(code), stdout: stdout.to_string(), stderr: stderr.to_string() }
}

#[test]
fn rules_have_the_numbers_of_the_grammar() {
    // Pairs 0 to 7: +:0 c:c e:e l:l s:s u:u Z:c Z:z.
    for (rule, numbers) in [
        ("Z:c <=> _ +:0 e:e", "<=> 006 _000002"),
        ("Z:c<=>___+:0 e:e", "<=> 006 _000002"),
        ("Z:z => # _", "=> 007 255_"),
        ("Z:z <= #:# _ #", "<= 007 255_255"),
        ("e /<= _", "/<= 002 _"),
        ("e:e /<= l u:u _ . @ : @:@ .", "/<= 002 003005_....."),
        ("+:0 => (e|s)* _ e**", "=> 000 (002|004)*_002*"),
        ("+:0 => (e s)* c|l _ (e|s) c", "=> 000 (002004)*001|003_(002|004)001"),
        ("+:0 => ((e s) (c)) _ ((e|s)|c)", "=> 000 002004001_002|004|001"),
        ("+:0 => Z: _ Z:@ :e", "=> 000 006|007_(006|007)002"),
        ("+:0 => Z:* _ @:c e", "=> 000 (006|007)*_(001|006)002"),
        // The boundary is a letter of its own on both sides.
        ("+:0 => #: _ :#", "=> 000 255_255"),
        ("+:0 => _ ((((((((e s)*)))))))", "=> 000 _(002004)*"),
    ] {
        assert_eq!(numbered(&sample_path("luz"), rule), format!("{numbers}\n"), "{rule}");
    }
    let quichua = sample_path("quichua");
    assert_eq!(numbered(&quichua, "i:i /<= _ Ftr:@ CPos"), "/<= 009 _(014|018|023)(017|025)\n");
    assert_eq!(numbered(&quichua, "i:e => CPos:*(Ftr|b)_"), "=> 026 (017|025|034)*(014|018|023|002)_\n");
}

#[test]
fn slips_are_told_with_what_may_be_meant() {
    let shape = "a rule is written as in Z:c <=> _ e:e";
    let after = "after its own pair a rule has an operator, => <= <=> or /<=";
    for (rule, what) in [
        ("k:c => _ e", "k:c: k (U+006B) is no letter of the alphabet, and no set is called so".to_string()),
        ("Z:c => _ E", "E (U+0045) is no letter of the alphabet, and no set is called so; is e (U+0065) meant?".to_string()),
        ("Z:c => _ es", "no set is called es; is e s meant?".to_string()),
        ("Z:c => _ Vow:@", "Vow:@: no set is called Vow".to_string()),
        ("Z:c => _ [e]", "no set is called [e]; brackets are ( and )".to_string()),
        ("Z:c => _ (e)? s", "? (U+003F) is no letter of the alphabet, and no set is called so; any letter is written @; for what may be left out, write both: (a:b c:c | c:c)".to_string()),
        ("Z:c => _ e:e:e", "e:e:e: a pair has one colon; is a blank missing?".to_string()),
        ("Z:c => _ e:s", "e:s: the grammar has no such pair; there are e:e s:s".to_string()),
        ("Z:c => _ 0", "0: the grammar has no such pair; there are +:0".to_string()),
        ("Z:s => _ e", "Z:s: the grammar has no such pair; there are s:s Z:c Z:z".to_string()),
        ("Z => _ e", "Z: the grammar has no such pair; there are Z:c Z:z".to_string()),
        ("Z: => _ e", "Z:: a rule's own pair is one pair; write a line for each of Z:c Z:z".to_string()),
        (". => _ e", format!(". where the rule's own pair should stand; {shape}")),
        ("=> Z:c _ e", format!("=> where the rule's own pair should stand; {shape}")),
        ("# => _ e", "#: the boundary is no rule's own pair; it stands in contexts only".to_string()),
        ("#:# => _ e", "#:#: the boundary is no rule's own pair; it stands in contexts only".to_string()),
        ("Z:c", after.to_string()),
        ("Z:c _ e", format!("_: {after}")),
        ("Z:c <-> _ e", format!("<->: {after}; is <=> meant?")),
        ("Z:c ⇐ _ e", format!("⇐: {after}; is <= meant?")),
        ("Z:c <==> _ e", format!("<==>: {after}; is <=> meant?")),
        ("Z:c<==_ e", format!("<==: {after}; is <= meant?")),
        ("Z:c /<== _ e", format!("/<==: {after}; is /<= meant?")),
        ("Z:c /<=> _ e", format!("/<=>: {after}; is /<= meant?")),
        ("Z:c <=>=> _ e", format!("<=>=>: {after}")),
        ("Z:c => <= _ e", "<=: a second operator; a rule has one".to_string()),
        ("Z:c => e", format!("no underscore, which stands for the rule's own pair between its contexts; {shape}")),
        ("Z:c => _ e | e _", format!("a second underscore; {shape}")),
        ("Z:c => _ (e", "a bracket ( without its partner".to_string()),
        ("Z:c => _ e)", "a bracket ) without its partner".to_string()),
        ("Z:c => (_ e)", "a bracket ( without its partner".to_string()),
        ("Z:c => _ ()", "brackets with nothing in them".to_string()),
        ("Z:c => _ (e|)", "a side of a bar is empty".to_string()),
        ("Z:c => | e _", "a side of a bar is empty".to_string()),
        ("Z:c => _ * e", "a star stands on nothing; it follows what may come none or more times".to_string()),
        ("Z:c => _ \"e\"", format!("\"e\": {shape}, without quotation marks; a table is named in a line of its own, RULE \"e\"")),
        ("RULE \"Z\"", "no written rule follows".to_string()),
        ("RULE Z becomes", "RULE takes the name of one rule of the grammar, in quotation marks".to_string()),
        ("RULE \"Z becoms c before +e\"", "no rule is called \"Z becoms c before +e\"; is Z becomes c before +e meant?".to_string()),
    ] {
        assert_eq!(told(&sample_path("luz"), rule), what, "{rule}");
    }
}

#[test]
fn contexts_have_64_bytes_and_brackets_of_depth_8() {
    let luz = sample_path("luz");
    let many = |count: usize| "e ".repeat(count);
    // 21 pairs and a full stop are 64 bytes.
    let full = format!("Z:c => {} . _ {} .", many(21), many(21));
    assert_eq!(numbered(&luz, &full), format!("=> 006 {0}._{0}.\n", "002".repeat(21)));
    let over = "takes 65 bytes with numbers, and 64 are allowed";
    assert_eq!(told(&luz, &format!("Z:c => _ {} . .", many(21))), format!("the right context {over}"));
    assert_eq!(told(&luz, &format!("Z:c => {} . . _", many(21))), format!("the left context {over}"));
    let wide = format!("Z:c => _ {} Z:@ .*", many(18));
    assert_eq!(
        told(&luz, &wide),
        "the right context takes 65 bytes with numbers, and 64 are allowed; Z:@ stands for 2 pairs, each of them a number"
    );
    let nested = |depth: usize, inside: &str| format!("Z:c => _ {}{inside}{}", "(".repeat(depth), " s)*".repeat(depth));
    assert_eq!(numbered(&luz, &nested(8, "e")), format!("=> 006 _{}002{}\n", "(".repeat(8), "004)*".repeat(8)));
    assert_eq!(told(&luz, &nested(9, "e")), "brackets are over 8 deep");
    assert_eq!(told(&luz, &format!("Z:c => _ {}e", "(".repeat(100_000))), "brackets are over 8 deep");
    // Pairs that stand for several need brackets of their own.
    assert_eq!(numbered(&luz, &nested(7, "Z:@")), format!("=> 006 _{}006|007){}\n", "(".repeat(8), "004)*".repeat(7)));
    assert_eq!(
        told(&luz, &nested(8, "Z:@")),
        "the right context has brackets over 8 deep, counting those around pairs that stand for several"
    );
}

#[test]
fn a_text_has_32_rules() {
    let luz = sample_path("luz");
    let lines = |count: usize| vec!["Z:c => _ e"; count];
    let ran = rules(&luz, &lines(32), &["--numbers"]);
    assert_eq!((ran.code, ran.stdout), (Some(0), "=> 006 _002\n".repeat(32)));
    for count in [33, 40] {
        let ran = rules(&luz, &lines(count), &["--numbers"]);
        assert_eq!(ran, self::ran(1, "", "--rule:33: over 32 written rules\n"));
    }
    let folder = scratch("thirty_two_rules");
    fs::write(folder.join("many.rules"), "Z:c => _ e\n".repeat(32)).unwrap();
    let file = folder.join("many.rules");
    let ran = rules(&luz, &["Z:z => _ e"], &["--numbers", file.to_str().unwrap()]);
    assert_eq!(ran, self::ran(1, "", "headwords: 33 written rules; allowed are 0 to 32\n"));
}

#[test]
fn a_sign_that_is_a_letter_is_one_beside_a_colon() {
    let folder = scratch("signs_as_letters");
    let grammar = folder.join("signs.txt");
    let text = "BOUNDARY #\nNULL 0\nANY @\nALPHABET ( ) | * . _ < = : / a\nSUBSET <=> ( )\nSUBSET a_b a *\nSUBSET S a\nSUBSET S_S ( )\nSUBSET (a a\nSUBSET a* a\nSUBSET -- |\nPAIRS (:( ):) |:| *:* .:. _:_ <:< =:= ::: /:/ a:a a:)\nLEXICON Root\na #\nEND\n";
    fs::write(&grammar, text).unwrap();
    for (rule, numbers) in [
        ("(:( => (*:*|.:.)* _ _:_ .", "=> 000 (003|004)*_005."),
        ("a:) => a _ ::: a:) a:a", "=> 011 010_008011010"),
        ("<:< <=> =:= _ |:| <:<", "<=> 006 007_002006"),
        ("/:/ /<= <=>:@ _ a_b:", "/<= 009 000|001_003|010|011"),
        ("::: => :( _ (:", "=> 008 000_000"),
        ("a => S_S _ S", "=> 010 000|001_010"),
        ("= /<= / _ <", "/<= 007 009_006"),
        ("a=> -- _ -- a", "=> 010 002_002010"),
    ] {
        assert_eq!(numbered(&grammar, rule), format!("{numbers}\n"), "{rule}");
    }
    let after = "after its own pair a rule has an operator, => <= <=> or /<=; is <=> meant?";
    assert_eq!(told(&grammar, "a <==> _"), format!("<==>: {after}"));
    let file = folder.join("numbers");
    for (numbers, letters) in [
        ("=> 000 (003|004)*_005.", "(:( => (*:* | .:.)* _ _:_ ."),
        ("=> 010 000_001010", "a:a => (:( _ ):) a:a"),
        ("=> 010 ((000|001)001*)*_(000|011)001", "a:a => (((:( | ):)) ):)*)* _ ((:( | a:)) ):)"),
        // Without the blank the set (a would be read, and a*.
        ("=> 000 (010|000)001_010*(.010)*", "(:( => ( a:a | (:() ):) _ a:a * (. a:a)*"),
    ] {
        fs::write(&file, numbers).unwrap();
        let shown = rules(&grammar, &[], &[file.to_str().unwrap(), "--letters"]);
        assert_eq!(shown, ran(0, &format!("{letters}\n"), ""), "{numbers}");
        assert_eq!(numbered(&grammar, letters), format!("{numbers}\n"), "{letters}");
    }
}

#[test]
fn rules_of_the_samples_come_back_with_letters() {
    let folder = scratch("back_with_letters");
    for name in SAMPLES {
        let grammar = sample_path(name);
        // The rules of quichua_ways are those of quichua.
        let written = sample_path(name.trim_end_matches("_ways")).with_extension("rules");
        let numbers = rules(&grammar, &[], &[written.to_str().unwrap(), "--numbers"]);
        assert_eq!((numbers.code, numbers.stderr.as_str()), (Some(0), ""));
        let file = folder.join("numbers");
        fs::write(&file, &numbers.stdout).unwrap();
        let letters = rules(&grammar, &[], &[file.to_str().unwrap(), "--letters"]);
        assert_eq!((letters.code, letters.stderr.as_str()), (Some(0), ""));
        fs::write(&file, &letters.stdout).unwrap();
        assert_eq!(rules(&grammar, &[], &[file.to_str().unwrap(), "--numbers"]), numbers);
    }
}

#[test]
fn numbers_are_refused_as_the_library_refuses_them() {
    let folder = scratch("refused_numbers");
    let file = folder.join("numbers");
    let letters = |text: &str| {
        fs::write(&file, text).unwrap();
        let ran = rules(&sample_path("luz"), &[], &[file.to_str().unwrap(), "--letters"]);
        (
            ran.code,
            ran.stdout,
            ran.stderr.replace(&format!("{}:", file.display()), "").chars().take(12).collect::<String>(),
        )
    };
    for (text, shown) in [
        ("", ""),
        ("<=> 006 _000002", "Z:c <=> _ +:0 e:e\n"),
        ("=> 006 255(000|.)*_255\n<= 007 _\n", "Z:c => #:# (+:0 | .)* _ #:#\nZ:z <= _\n"),
    ] {
        assert_eq!(letters(text), (Some(0), shown.to_string(), String::new()), "{text:?}");
    }
    for (text, begins) in [
        ("\n", "1: refused 1"),
        ("=> 006 _\n\n", "2: refused 1"),
        ("=> 006 _\n=> 06 _\n", "2: refused 1"),
        ("=> 255 _\n", "1: refused 2"),
        ("=> 006 _\n=> 006 _008\n", "2: refused 2"),
        (&"=> 006 _\n".repeat(33), "0: refused 1"),
        ("=> 006 _\u{e9}", "1: refused 1"),
    ] {
        assert_eq!(letters(text), (Some(1), String::new(), begins.to_string()), "{text:?}");
    }
}

/// Source document 001, example 2.1, as document 01 reads it.
const PALATAL: &str = "BOUNDARY #\nNULL 0\nANY @\nALPHABET t c i s\nPAIRS t:c t:t i:i s:s\nRULE \"t becomes c before i\" 3 4\nt t i @\nc @ @ @\n1: 3 2 1 1\n2: 3 2 0 1\n3. 0 0 1 0\nLEXICON Root\nt #\nEND\n";

#[test]
fn the_palatal_rule_judges_as_its_table_does() {
    let folder = scratch("palatal");
    let grammar = folder.join("palatal.txt");
    fs::write(&grammar, PALATAL).unwrap();
    let rule = "t:c <=> _ i";
    for (pairing, holds) in [("t:c i:i", true), ("t:t i:i", false), ("t:c", false), ("t:t", true)] {
        let verdict = if holds { "holds" } else { "fails" };
        let ran = rules(&grammar, &[rule], &["--against", "0", "--pairing", pairing]);
        assert_eq!((ran.code, ran.stderr.as_str()), (Some(0), ""), "{pairing}");
        let lines: Vec<&str> = ran.stdout.lines().collect();
        assert_eq!(lines[0], format!("{verdict}\t{pairing}\t{rule}"));
        assert!(lines[1].starts_with(&format!("{verdict}\t{pairing}\trule \"t becomes c before i\"")), "{}", lines[1]);
        assert_eq!(lines.len(), 2);
    }
    let ran = rules(&grammar, &[rule], &["--against", "t becomes"]);
    assert_eq!((ran.code, ran.stderr.as_str()), (Some(0), ""));
    assert!(ran.stdout.starts_with("rule \"t becomes c before i\": same on "), "{}", ran.stdout);
}

#[test]
fn the_shortest_pairing_that_is_judged_differently_is_told_first() {
    let luz = sample_path("luz");
    let ran = rules(&luz, &["Z:c => _ +:0 e:e"], &["--against", "Z"]);
    assert_eq!((ran.code, ran.stderr.as_str()), (Some(1), ""));
    let (head, differences) = ran.stdout.split_once('\n').unwrap();
    assert!(head.starts_with("rule \"Z becomes c before +e\": judged differently on "), "{head}");
    let right = "  Z:z +:0 e:e\n    the table fails: rule \"Z becomes c before +e\" is in state 4 and refuses e:e: row 4 has 0 under e:e\n    the written rule holds\n";
    assert_eq!(differences, right);
    let ran = rules(&luz, &["Z:c <=> _ +:0 e:e", "e:e /<= e:e _"], &["--against", "Z"]);
    assert_eq!(ran.code, Some(1));
    let right = "  e:e e:e\n    the table holds\n    the written rule fails: e:e /<= e:e _\n";
    assert_eq!(ran.stdout.split_once('\n').unwrap().1, right);
}

#[test]
fn lines_under_one_name_are_one_rule_and_tables_named_together_one_table() {
    let folder = scratch("together");
    let grammar = folder.join("two.txt");
    let two = PALATAL.replace(
        "LEXICON",
        "RULE \"no s at the front\" 2 3\n# s @\n# s @\n1: 2 1 1\n2: 2 0 1\nRULE \"t becomes c\" 1 2\nt @\nt @\n1: 0 1\nLEXICON",
    );
    fs::write(&grammar, two).unwrap();
    let held = |text: &str| {
        let file = folder.join("two.rules");
        fs::write(&file, text).unwrap();
        let ran = rules(&grammar, &[], &[file.to_str().unwrap()]);
        let heads: Vec<String> = ran.stdout.lines().filter(|line| line.starts_with("rule")).map(until_on).collect();
        (ran.code, heads, ran.stderr.replace(&file.display().to_string(), "two.rules"))
    };
    let same = "rule \"t becomes c before i\": same on";
    let split = "RULE \"t becomes c before i\" ; in two lines\n\n  t:c => _ i\n  t:c <= _ i\nRULE 1\n  s /<= # _\n";
    assert_eq!(held(split), (Some(0), vec![same.into(), "rule \"no s at the front\": same on".into()], String::new()));
    let both = "RULE \"t becomes c before i\"\nRULE \"no s at the front\"\ns:s /<= # _\nt:c <=> _ i\n";
    let both_same = "rules \"t becomes c before i\" and \"no s at the front\": same on";
    assert_eq!(held(both), (Some(0), vec![both_same.into()], String::new()));
    // By the third table t is c everywhere: with it the rule in one direction says the same.
    let more = "RULE \"t becomes c\"\nRULE \"t becomes c before i\"\nt:t /<= _\nt:c => _ i\n";
    assert_eq!(held(more).0, Some(0));
    assert_eq!(held(&more.replace("t:t /<= _\n", "")).0, Some(1));
    let unnamed = "headwords: rules under no RULE are held against nothing: write RULE \"name\" above, or give --against NAME, or pairings\n";
    assert_eq!(held(&format!("t:t => _\n{split}")).2, unnamed);
    let at_fault = "RULE 0\nt:c => i\n";
    assert_eq!(held(at_fault).2.lines().count(), 1);
    let faults = "RULE \"t becomes c before i\"\nt:c => _ i\nRULE 0\nt:c => _\nRULE 7\nRULE 1\n";
    let told = "two.rules:3: a second RULE \"t becomes c before i\"; the first is in line 1\ntwo.rules:5: there is no rule 7; the grammar has 3, from 0 on\ntwo.rules:6: no written rule follows\n";
    assert_eq!(held(faults), (Some(1), Vec::new(), told.to_string()));
}

/// The beginning of a line, up to how many pairings it speaks of.
fn until_on(line: &str) -> String {
    line.find(" on ").map_or(line.to_string(), |at| line[..at + 3].to_string())
}

#[test]
fn pairings_may_be_given_one_by_one_in_a_file_or_as_readings_of_words() {
    let luz = sample_path("luz");
    let folder = scratch("given_pairings");
    let (pairings, words) = (folder.join("pairings"), folder.join("words"));
    fs::write(&pairings, "; two\nZ:z +:0 e\n\nl u Z:c +:0 e:e s\n").unwrap();
    fs::write(&words, "luces\nluz\nluzes\nluces\n").unwrap();
    let (pairings, words) = (pairings.to_str().unwrap(), words.to_str().unwrap());
    let one = ["Z:c => _ +:0 e:e"];
    let right = "rule \"Z becomes c before +e\": judged differently on 1 of 2 pairings\n  Z:z +:0 e:e\n    the table fails: rule \"Z becomes c before +e\" is in state 4 and refuses e:e: row 4 has 0 under e:e\n    the written rule holds\n";
    assert_eq!(rules(&luz, &one, &["--against", "0", "--pairings", pairings]), ran(1, right, ""));
    assert_eq!(rules(&luz, &one, &["--pairings", pairings]), ran(0, "Z:c => _ +:0 e:e: holds on 2 pairings\n", ""));
    // Each reading once: luces has two, luz one.
    let right = "rule \"Z becomes c before +e\": same on 3 pairings\n";
    assert_eq!(rules(&luz, &one, &["--against", "0", "--words", words]), ran(0, right, ""));
    let right = "c => u _ #: fails on 1 of 3 pairings\n  l:l u:u c:c +:0 e:e s:s\nZ:c => u _: holds on 3 pairings\n";
    assert_eq!(rules(&luz, &["c => u _ #", "Z:c => u _"], &["--words", words]), ran(0, right, ""));
    let right = "holds\tZ:z +:0 e:e\tZ:c => _ +:0 e:e\nfails\tZ:z +:0 e:e\trule \"Z becomes c before +e\" is in state 4 and refuses e:e: row 4 has 0 under e:e\n";
    assert_eq!(rules(&luz, &one, &["--against", "0", "--pairing", "Z:z +:0 e"]), ran(1, right, ""));
}

#[test]
fn pairings_at_fault_are_told() {
    let luz = sample_path("luz");
    let refused = "refused 13: pairing length 0 or over 40, or no such pair";
    let forty_one = "l ".repeat(41);
    for (pairing, what) in [
        ("", refused),
        (forty_one.as_str(), refused),
        ("l:l #", "#: the boundary stands at both ends of every pairing, and is not written"),
        ("l:l Z:", "Z: is more than one pair; a pairing names each of its pairs"),
        ("l:l .", ". is no pair; a pairing is pairs, as in l:l u:u Z:c"),
        ("l:l k", "k (U+006B) is no letter of the alphabet, and no set is called so"),
        ("l:c", "l:c: the grammar has no such pair; there are c:c l:l Z:c"),
    ] {
        let ran = rules(&luz, &["Z:c => _"], &["--pairing", pairing]);
        assert_eq!(ran, self::ran(1, "", &format!("--pairing:1: {what}\n")), "{pairing}");
    }
    let forty = "l ".repeat(40);
    assert_eq!(rules(&luz, &["Z:c => _"], &["--pairing", &forty]).code, Some(0));
}

#[test]
fn a_set_with_the_boundary_is_more_than_one_pair() {
    let folder = scratch("set_with_boundary");
    let grammar = folder.join("ends.txt");
    fs::write(&grammar, PALATAL.replace("PAIRS", "SUBSET E i #\nSUBSET B #\nSUBSET T t\nPAIRS")).unwrap();
    assert_eq!(numbered(&grammar, "t:c => B _ E:"), "=> 000 255_002|255\n");
    let own = "a rule's own pair is one pair, and not the boundary, which this is too; write a line for each of i:i";
    assert_eq!(told(&grammar, "E: => _"), format!("E:: {own}"));
    assert_eq!(told(&grammar, "E => _"), format!("E: {own}"));
    assert_eq!(told(&grammar, "T: => _"), "T:: a rule's own pair is one pair; write a line for each of t:c t:t");
    for (pairing, what) in [
        ("t:c E:", "E: is more than one pair, the boundary among them; a pairing names each of its pairs"),
        ("T: i", "T: is more than one pair; a pairing names each of its pairs"),
        ("t:c B", "B: the boundary stands at both ends of every pairing, and is not written"),
    ] {
        let ran = rules(&grammar, &["t:c => _"], &["--pairing", pairing]);
        assert_eq!(ran, self::ran(1, "", &format!("--pairing:1: {what}\n")), "{pairing}");
    }
}

#[test]
fn nothing_to_hold_and_nothing_to_hold_it_on_are_told() {
    let luz = sample_path("luz");
    let folder = scratch("nothing_to_hold");
    let (empty, unread) = (folder.join("empty"), folder.join("unread"));
    fs::write(&empty, "; nothing\n\n").unwrap();
    fs::write(&unread, "luzes\n").unwrap();
    let (empty, unread) = (empty.to_str().unwrap(), unread.to_str().unwrap());
    let no_pairing = "headwords: there is no pairing to hold the rules on: ";
    for (options, what) in
        [(["--pairings", empty], "none is given\n"), (["--words", unread], "no word has a reading\n")]
    {
        let told = ran(1, "", &format!("{no_pairing}{what}"));
        assert_eq!(rules(&luz, &["Z:c => _"], &options), told);
        assert_eq!(rules(&luz, &["Z:c => _"], &[&options[..], &["--against", "0"]].concat()), told);
    }
    let no_rule = |name: &str| ran(1, "", &format!("headwords: {name}: there is no rule in it\n"));
    for options in [&[][..], &["--against", "0"], &["--pairing", "l"], &["--words", unread]] {
        assert_eq!(rules(&luz, &[], &[&[empty], options].concat()), no_rule(empty));
        assert_eq!(rules(&luz, &[""], options), no_rule("--rule"));
    }
    assert_eq!(rules(&luz, &[], &[empty, "--numbers"]), ran(0, "", ""));
}

#[test]
fn options_that_say_nothing_together_are_wrong_usage() {
    let luz = sample_path("luz");
    for (options, what) in [
        (&["--numbers", "--pairing", "l"][..], "--numbers and --pairing go not together"),
        (&["--numbers", "--against", "0"], "--numbers and --against go not together"),
        (&["--letters"], "--letters and --rule go not together"),
        (&["--words", "w", "--draw", "3"], "--words and --draw go not together"),
        (&["--draw", "0"], "--draw takes a number from 1 on, not 0"),
        (&["--draw", "10000001"], "--draw takes a number up to 10000000"),
        (&["-", "--pairings", "-"], "standard input is read once, and - is given more than once"),
        (&["-", "--words", "-"], "standard input is read once, and - is given more than once"),
        (&["--words", "-", "--pairings", "-"], "standard input is read once, and - is given more than once"),
    ] {
        let ran = rules(&luz, &["Z:c => _"], options);
        assert_eq!((ran.code, ran.stdout.as_str()), (Some(2), ""), "{options:?}");
        assert!(ran.stderr.starts_with(&format!("headwords rules: {what}\n")), "{}", ran.stderr);
    }
    assert_eq!(rules(&luz, &[], &[]).code, Some(2));
    let unnamed = "headwords: no table is named to hold the rules against: write RULE \"name\" above, or give --against NAME, or pairings\n";
    assert_eq!(rules(&luz, &["Z:c => _"], &[]), ran(1, "", unnamed));
}
