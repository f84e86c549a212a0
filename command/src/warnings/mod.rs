//! What a grammar may say but hardly means. It is accepted all the same.

mod circles;
mod doubles;
mod letters;
mod lexicons;
mod tables;

use crate::text::{Fault, Grammar};

/// The warnings about a grammar, in the order of their lines.
pub fn warnings(grammar: &Grammar) -> Vec<Fault> {
    let kinds = [letters::warnings, tables::warnings, lexicons::warnings, doubles::warnings, circles::warnings];
    let mut told: Vec<Fault> = kinds.iter().flat_map(|kind| kind(grammar)).collect();
    told.sort_by_key(|warning| warning.line);
    told
}

fn warning(line: usize, what: String) -> Fault {
    Fault::new(line, format!("warning: {what}"))
}

/// Which numbers below `count` can be come to from those of `open`, themselves among them.
fn reached(count: usize, mut open: Vec<usize>, onward: impl Fn(usize) -> Vec<usize>) -> Vec<bool> {
    let mut reached = vec![false; count];
    while let Some(here) = open.pop() {
        if !reached[here] {
            reached[here] = true;
            open.extend(onward(here));
        }
    }
    reached
}
