//! Lexicons that no word comes to, those that no word comes out of, and alternations that no entry names.

use crate::text::lexicons::Lexicon;
use crate::text::{Fault, Grammar};
use crate::warnings::{reached, warning};

pub fn warnings(grammar: &Grammar) -> Vec<Fault> {
    let lexicons = &grammar.lexicons;
    let come_to = reached(lexicons.len(), vec![0], |lexicon| onward(&lexicons[lexicon]));
    let unnamed = grammar.alternations.iter().filter(|one| !one.is_named);
    let mut told: Vec<Fault> =
        unnamed.map(|one| warning(one.line, format!("ALTERNATION {} is named by no entry", one.name))).collect();
    for (number, lexicon) in lexicons.iter().enumerate() {
        let name = &lexicon.name;
        let ends = || reached(lexicons.len(), vec![number], |lexicon| onward(&lexicons[lexicon]));
        if !come_to[number] {
            let what = format!("lexicon {name} is never reached: no entry leads to it from the first lexicon");
            told.push(warning(lexicon.line, what));
        } else if lexicon.entries.is_empty() {
            told.push(warning(lexicon.line, format!("lexicon {name} has no entries: no word goes through it")));
        } else if !{ ends }().iter().zip(lexicons).any(|(&reached, lexicon)| reached && has_end(lexicon)) {
            told.push(warning(lexicon.line, format!("no word ends in lexicon {name} or in one that it leads to")));
        }
    }
    told
}

/// The lexicons that a lexicon's entries lead to.
fn onward(lexicon: &Lexicon) -> Vec<usize> {
    lexicon.entries.iter().flat_map(|entry| entry.ways.lexicons()).collect()
}

fn has_end(lexicon: &Lexicon) -> bool {
    lexicon.entries.iter().any(|entry| entry.ways.end)
}
