//! A rule as it is shown: columns with the pairs that take them, and for each state its arcs, one to each state that it leads to.

use crate::text::columns::Sides;
use crate::text::pairs::BOUNDARY_PAIR;
use crate::text::{write_rule, Grammar};

/// A rule with everything that it speaks of in the text's own letters.
pub struct Shown {
    /// The rule's number, from 0.
    pub number: usize,
    pub name: String,
    /// Its lines in a grammar's text.
    pub table: String,
    pub columns: Vec<ShownColumn>,
    /// States 1, 2, ..
    pub states: Vec<ShownState>,
}

pub struct ShownColumn {
    /// As `Z:c`.
    pub name: String,
    /// The pairs that take it, the boundary pair last.
    pub pairs: Vec<String>,
}

pub struct ShownState {
    pub is_final: bool,
    /// In the order of the states that they lead to; 0, failure, is last.
    pub arcs: Vec<Arc>,
}

pub struct Arc {
    pub to: usize,
    /// The places of its columns.
    pub columns: Vec<usize>,
}

impl Shown {
    /// The rule at place `at` of a grammar.
    pub fn of(grammar: &Grammar, at: usize) -> Shown {
        let rule = &grammar.rules[at];
        let sides = Sides { alphabet: &grammar.alphabet, sets: &grammar.sets };
        let fed: Vec<_> = grammar.pairs.iter().copied().chain([BOUNDARY_PAIR]).collect();
        let column = |place: usize| ShownColumn {
            name: sides.show_column(rule.columns[place]),
            pairs: fed
                .iter()
                .zip(&rule.taken)
                .filter(|&(_, &taken)| taken == place)
                .map(|(pair, _)| pair.show(&grammar.alphabet))
                .collect(),
        };
        let states = rule.states.iter();
        Shown {
            number: at,
            name: rule.name.clone(),
            table: write_rule(rule, sides),
            columns: (0..rule.columns.len()).map(column).collect(),
            states: states.map(|state| ShownState { is_final: state.is_final, arcs: arcs(&state.next) }).collect(),
        }
    }

    /// The names of an arc's columns.
    pub fn labels(&self, arc: &Arc) -> Vec<String> {
        arc.columns.iter().map(|&at| self.columns[at].name.clone()).collect()
    }
}

/// A row's arcs: the columns that lead to one state are one arc.
fn arcs(next: &[u8]) -> Vec<Arc> {
    let mut targets: Vec<usize> = next.iter().map(|&to| usize::from(to)).collect();
    targets.sort_by_key(|&to| (to == 0, to));
    targets.dedup();
    let columns = |to: usize| next.iter().enumerate().filter(move |&(_, &next)| usize::from(next) == to);
    targets.into_iter().map(|to| Arc { to, columns: columns(to).map(|(at, _)| at).collect() }).collect()
}

#[cfg(test)]
mod tests {
    use super::arcs;

    #[test]
    fn columns_that_lead_to_one_state_are_one_arc_and_failure_is_last() {
        let found: Vec<_> = arcs(&[3, 0, 1, 3, 0]).into_iter().map(|arc| (arc.to, arc.columns)).collect();
        assert_eq!(found, [(1, vec![2]), (3, vec![0, 3]), (0, vec![1, 4])]);
    }
}
