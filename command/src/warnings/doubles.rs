//! What stands twice: entries of one lexicon, and rules.

use crate::text::rules::Rule;
use crate::text::ways::Ways;
use crate::text::{Fault, Grammar};
use crate::warnings::warning;
use std::collections::HashMap;

pub fn warnings(grammar: &Grammar) -> Vec<Fault> {
    [double_rules(grammar), double_entries(grammar)].concat()
}

fn double_rules(grammar: &Grammar) -> Vec<Fault> {
    let mut told = Vec::new();
    for (at, rule) in grammar.rules.iter().enumerate() {
        if let Some(first) = grammar.rules[..at].iter().find(|other| is_same(other, rule)) {
            let what =
                format!("rule \"{}\" has the table of rule \"{}\"{}", rule.name, first.name, in_line(first.line));
            told.push(warning(rule.line, what));
        }
    }
    told
}

fn is_same(one: &Rule, other: &Rule) -> bool {
    let columns = |rule: &Rule| rule.columns.iter().map(|column| [column.lexical, column.surface]).collect::<Vec<_>>();
    let states = |rule: &Rule| rule.states.iter().map(|state| (state.is_final, state.next.clone())).collect::<Vec<_>>();
    columns(one) == columns(other) && states(one) == states(other)
}

/// What of an entry gives a reading its words. A gloss in words, or none, has the entry's own number, which tells nothing
/// where the words are known, and all where they are not.
#[derive(PartialEq, Eq, Hash)]
struct Said<'a> {
    lexicon: &'a str,
    form: &'a [u8],
    gloss_text: &'a str,
    gloss: Option<u16>,
}

/// An entry that says the same as one before.
#[derive(Clone, Copy)]
struct Seen {
    number: usize,
    line: usize,
    ways: Ways,
}

fn double_entries(grammar: &Grammar) -> Vec<Fault> {
    let mut seen: HashMap<Said, Vec<Seen>> = HashMap::new();
    let mut told = Vec::new();
    for (number, (lexicon, entry)) in grammar.entries().into_iter().enumerate() {
        let gloss = Some(entry.gloss).filter(|&gloss| !grammar.named || usize::from(gloss) != number);
        let said = Said { lexicon: &lexicon.name, form: &entry.form, gloss_text: &entry.gloss_text, gloss };
        let before = seen.entry(said).or_default();
        let equal = before.iter().find(|other| other.ways == entry.ways);
        // Two that say the same and go on by other ways are two entries; by one way in common, they are a slip.
        if let Some(first) = equal.or(before.iter().find(|other| other.ways.meets(entry.ways))) {
            let (form, of) = (grammar.show_form(&entry.form), format!("entry {}{}", first.number, in_line(first.line)));
            let double = "each word that has it has its readings twice";
            let what = match equal {
                Some(_) => format!("entry {number} ({form}) is as {of}: {double}"),
                None => {
                    let shared = grammar.show_ways(first.ways.shared(entry.ways));
                    format!("entry {number} ({form}) is as {of}, and both go on to {shared}: {double} there")
                }
            };
            told.push(warning(entry.line, what));
        }
        if equal.is_none() {
            before.push(Seen { number, line: entry.line, ways: entry.ways });
        }
    }
    told
}

fn in_line(line: usize) -> String {
    match line {
        0 => String::new(),
        line => format!(" in line {line}"),
    }
}
