//! `headwords why`: why a word has no reading.

use crate::arguments::{Choice, Given};
use crate::commands::Command;
use crate::failure::{print, Failure};
use crate::loaded::load;
use crate::why::{Explainer, Teller};
use crate::words::trimmed;
use std::path::Path;

pub const COMMAND: Command = Command {
    name: "why",
    operands: "GRAMMAR WORD...",
    count: 2..=usize::MAX,
    what: "why a word has no reading",
    options: &[Choice { name: "--json", value: None, what: "a line of JSON a word" }],
    more: "\
For a word without a reading: how far the furthest ways through entries and pairs come, with a bar after the letters that
they cover; the pairing so far, lexical over surface, and the entries; and there either the rule, its state and the pair
that it refuses, in brackets, or the lexicon with the entries that were tried. Then each rule that, left out alone, leaves
the word a reading, or the rules that refuse one together. A word that has readings is told so, and one that cannot be
spelled with what is near.

That a word has readings, with all rules or without some, is the library's answer. The search for the furthest ways
explains, and ends after 200,000 steps; an answer of the library is waited for 10 seconds. Where either cuts the
explanation short, that is told.

status: 0 where every word is answered; 1 where the grammar has faults or cannot be read; 2 for wrong usage
",
    run,
};

fn run(given: &Given) -> Result<(), Failure> {
    let loaded = load(Path::new(&given.operands[0]))?;
    let explainer = Explainer::new(&loaded);
    let teller = Teller::new(&explainer);
    for (at, word) in given.operands[1..].iter().enumerate() {
        let word = trimmed(word.as_encoded_bytes());
        let told = match (given.has("--json"), at) {
            (true, _) => teller.json(word),
            (false, 0) => teller.tell(word),
            (false, _) => format!("\n{}", teller.tell(word)),
        };
        print(&told)?;
    }
    Ok(())
}
