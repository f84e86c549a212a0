//! Rules that no word can pass, states that are never reached, and columns that are never picked.

use crate::text::columns::Sides;
use crate::text::pairs::BOUNDARY_PAIR;
use crate::text::rules::Rule;
use crate::text::{Fault, Grammar};
use crate::warnings::{reached, warning};

pub fn warnings(grammar: &Grammar) -> Vec<Fault> {
    grammar.rules.iter().flat_map(|rule| [idle_columns(rule, grammar), dead_ends(rule, grammar)].concat()).collect()
}

/// A column is picked by a pair that it matches and that no narrower one does.
fn idle_columns(rule: &Rule, grammar: &Grammar) -> Vec<Fault> {
    let sides = Sides { alphabet: &grammar.alphabet, sets: &grammar.sets };
    let idle = rule.columns.iter().enumerate().filter(|(at, _)| !rule.taken.contains(at));
    idle.map(|(at, &column)| {
        let mut fed = grammar.pairs.iter().copied().chain([BOUNDARY_PAIR]);
        let why = match fed.any(|pair| sides.matches(column, pair)) {
            true => "is never picked: each pair that it matches has a narrower one",
            false => "matches no pair, and is never picked",
        };
        let shown = format!("rule \"{}\": column {} ({})", rule.name, at + 1, sides.show_column(column));
        warning(rule.sides_line, format!("{shown} {why}"))
    })
    .collect()
}

fn dead_ends(rule: &Rule, grammar: &Grammar) -> Vec<Fault> {
    let boundary = BOUNDARY_PAIR.show(&grammar.alphabet);
    if rule.fails_at_front() {
        let moves = format!("rule \"{}\" goes from state 1 to 0 by {boundary}", rule.name);
        let what = format!("{moves}, which comes first in every word: no word has a reading");
        return vec![warning(rule.states[0].line, what)];
    }
    let inside = states_inside(rule);
    let after_a_pair: Vec<usize> =
        inside.iter().flat_map(|&state| after(rule, state)).filter(|&next| next > 0).collect();
    if after_a_pair.is_empty() {
        let what = format!("rule \"{}\" refuses every pair: no word has a reading", rule.name);
        return vec![warning(rule.line, what)];
    }
    let is_final = |state: usize| state > 0 && rule.states[state - 1].is_final;
    let ends = || after_a_pair.iter().map(|&state| rule.next(state, rule.boundary()));
    if !ends().any(is_final) {
        let what =
            format!("rule \"{}\" comes to no final state at the end of a word: no word has a reading", rule.name);
        return vec![warning(rule.line, what)];
    }
    let is_reached = |state: &usize| *state == 1 || inside.contains(state) || ends().any(|end| end == *state);
    let never = (1..=rule.states.len()).filter(|state| !is_reached(state));
    never
        .map(|state| {
            warning(rule.states[state - 1].line, format!("rule \"{}\": state {state} is never reached", rule.name))
        })
        .collect()
}

/// The states that a rule may be in between the two boundary pairs.
fn states_inside(rule: &Rule) -> Vec<usize> {
    let onward = |state: usize| match state {
        0 => Vec::new(),
        _ => after(rule, state),
    };
    let front = rule.next(1, rule.boundary());
    let reached = reached(rule.states.len() + 1, vec![front], onward);
    (1..=rule.states.len()).filter(|&state| reached[state]).collect()
}

/// The states that pairs lead to from a state.
fn after(rule: &Rule, state: usize) -> Vec<usize> {
    let picked = &rule.taken[..rule.taken.len() - 1];
    picked.iter().map(|&column| rule.next(state, column)).collect()
}
