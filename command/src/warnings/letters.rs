//! Letters that no pair has, and sets that no rule names.

use crate::text::alphabet::FIRST;
use crate::text::lines::name;
use crate::text::sets::FIRST_SET;
use crate::text::{Fault, Grammar};
use crate::warnings::warning;

pub fn warnings(grammar: &Grammar) -> Vec<Fault> {
    [unpaired_letters(grammar), unnamed_sets(grammar)].concat()
}

fn unpaired_letters(grammar: &Grammar) -> Vec<Fault> {
    let has_pair = |letter: u8| grammar.pairs.iter().any(|pair| pair.lexical == letter || pair.surface == letter);
    let letters = (FIRST..).take(grammar.alphabet.count() - 1).filter(|&letter| !has_pair(letter));
    letters
        .map(|letter| {
            let shown = name(grammar.alphabet.character(letter));
            warning(grammar.alphabet.line(letter), format!("letter {shown} is in no pair: no form and no word has it"))
        })
        .collect()
}

fn unnamed_sets(grammar: &Grammar) -> Vec<Fault> {
    let columns = || grammar.rules.iter().flat_map(|rule| &rule.columns);
    let is_named = |side: u8| columns().any(|column| column.lexical == side || column.surface == side);
    let sets = (FIRST_SET..).zip(grammar.sets.all()).filter(|&(side, _)| !is_named(side));
    sets.map(|(_, set)| warning(set.line, format!("set {} is named by no rule", set.name))).collect()
}
