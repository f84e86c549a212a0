//! A rule as text: the table as a grammar's text has it, the pairs of its columns, and its arcs state by state.

use super::arcs::{Shown, ShownState};

pub fn text(shown: &Shown) -> String {
    let mut text = format!("rule {}\n{}\nthe pairs that take each column:\n", shown.number, shown.table);
    let width = shown.columns.iter().map(|column| column.name.chars().count()).max().unwrap_or(0);
    for column in &shown.columns {
        let pairs = if column.pairs.is_empty() { "none".to_string() } else { column.pairs.join(" ") };
        text += &format!("  {:width$}  {pairs}\n", column.name);
    }
    for (number, state) in (1..).zip(&shown.states) {
        text += &format!("\nstate {number}, {}\n", kind(number, state));
        for arc in &state.arcs {
            let to = if arc.to == 0 { "fails".to_string() } else { format!("to {}", arc.to) };
            text += &format!("  {to:5}  {}\n", shown.labels(arc).join(" "));
        }
    }
    text
}

/// What a state is, in words.
fn kind(number: usize, state: &ShownState) -> &'static str {
    match (number, state.is_final) {
        (1, true) => "the start, final",
        (1, false) => "the start, not final",
        (_, true) => "final",
        (_, false) => "not final",
    }
}
