//! Circles of empty entries: lexicons that lead back to themselves without a letter.

use crate::text::lexicons::{Entry, Lexicon};
use crate::text::{Fault, Grammar};
use crate::warnings::{reached, warning};

pub fn warnings(grammar: &Grammar) -> Vec<Fault> {
    let found = circles(&grammar.lexicons).into_iter();
    found
        .map(|(lexicon, entry)| {
            let back = format!("lexicon {} leads back to itself by empty forms alone", lexicon.name);
            warning(entry.line, format!("{back}: a path may go round without a letter"))
        })
        .collect()
}

/// For each circle its first entry in the text, with the lexicon that it stands in. Circles that have a
/// lexicon in common count as one.
fn circles(lexicons: &[Lexicon]) -> Vec<(&Lexicon, &Entry)> {
    let next_of = |lexicon: usize| next(&lexicons[lexicon]);
    let reached: Vec<Vec<bool>> = lexicons.iter().map(|from| reached(lexicons.len(), next(from), next_of)).collect();
    let mut told = vec![false; lexicons.len()];
    let mut found = Vec::new();
    for (from, lexicon) in lexicons.iter().enumerate() {
        let back = lexicon.entries.iter().find(|entry| onward(entry).any(|to| to == from || reached[to][from]));
        let Some(entry) = back.filter(|_| !told[from]) else {
            continue;
        };
        for (other, is_told) in told.iter_mut().enumerate() {
            *is_told |= reached[from][other] && reached[other][from];
        }
        found.push((lexicon, entry));
    }
    found
}

/// The lexicons that a lexicon's empty entries lead to.
fn next(lexicon: &Lexicon) -> Vec<usize> {
    lexicon.entries.iter().flat_map(onward).collect()
}

/// The lexicons that an entry with an empty form leads to.
fn onward(entry: &Entry) -> impl Iterator<Item = usize> + '_ {
    entry.ways.lexicons().filter(|_| entry.form.is_empty())
}
