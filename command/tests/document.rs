//! The example in GRAMMARS.md is the luz grammar, and what it shows of sets and alternations stands in the samples.

mod support;

use std::fs;
use std::path::Path;
use support::{assembled, sample};

/// The document stands in the folder of documents, or beside this package.
fn document() -> String {
    let above = Path::new(env!("CARGO_MANIFEST_DIR")).join("..");
    let places = [above.join("docs/GRAMMARS.md"), above.join("GRAMMARS.md")];
    let place = places.iter().find(|place| place.exists()).expect("GRAMMARS.md");
    fs::read_to_string(place).unwrap()
}

/// The indented lines from the first that opens a grammar to its END.
fn example(document: &str) -> String {
    let from = document.find("    BOUNDARY #").expect("an example");
    let end = from + document[from..].find("    END\n").expect("the end of the example");
    document[from..end].to_string() + "END\n"
}

#[test]
fn the_example_gives_the_image_of_luz() {
    let image = assembled(&example(&document())).unwrap();
    assert!(image == assembled(&sample("luz")).unwrap(), "the example is another grammar");
}

/// The indented lines after the line `heading`, up to the first that is not.
fn lines_after<'a>(document: &'a str, heading: &str) -> Vec<&'a str> {
    let after = document.lines().skip_while(|line| *line != heading).skip(1);
    let lines = after.skip_while(|line| line.is_empty()).take_while(|line| line.starts_with("    ")).map(str::trim);
    lines.collect()
}

#[test]
fn the_sets_and_their_rule_are_those_of_quichua() {
    let document = document();
    let quichua = sample("quichua");
    let lines: Vec<&str> = quichua.lines().map(str::trim).collect();
    let shown = lines_after(&document, "### SUBSET");
    assert!(shown.len() > 1 && shown.iter().all(|line| lines.contains(line)), "{shown:?}");
    let rule = lines_after(
        &document,
        "A side of a column is one character (a letter, the null, the boundary or `@`) or the name of a set:",
    );
    assert!(rule.len() > 1 && lines.windows(rule.len()).any(|here| here == rule), "{rule:?}");
}

#[test]
fn the_alternations_are_those_of_quichua_ways() {
    let document = document();
    let quichua = sample("quichua_ways");
    let shown = lines_after(&document, "### ALTERNATION");
    assert!(shown.len() > 1 && shown.iter().all(|shown| quichua.lines().any(|line| line == *shown)), "{shown:?}");
}

/// Entries that end and go on, put in place of those of luz.
#[test]
fn the_entries_with_several_continuations_are_read() {
    let document = document();
    let heading =
        "An entry may end the word and go on as well. With this in place of luz's entries, and without its empty one,";
    let after = document.split_once(heading).unwrap().1;
    let shown: Vec<&str> =
        after.lines().skip(2).take_while(|line| line.is_empty() || line.starts_with("    ")).collect();
    let luz = sample("luz");
    let before = &luz[..luz.find("LEXICON").unwrap()];
    let image = assembled(&format!("{before}{}\nEND\n", shown.join("\n"))).unwrap();
    assert_eq!((support::check::refusal(&image), support::check::counts(&image).form), (None, 2));
}
