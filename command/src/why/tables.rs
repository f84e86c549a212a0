//! A grammar as a search walks through it: entries by number, and every rule's next state for every pair.

use crate::text::columns::Sides;
use crate::text::lexicons::Entry;
use crate::text::limits;
use crate::text::pairs::{Pair, BOUNDARY_PAIR};
use crate::text::ways::Ways;
use crate::text::Grammar;

/// The state of each rule, side by side; places past the last rule are 0.
pub type States = [u8; *limits::RULES.end()];

/// A rule that a pair leads to failure, or that does not end well.
#[derive(Clone, Copy, Debug, PartialEq, Eq, Hash)]
pub struct Refusal {
    /// The rule's place among the rules.
    pub rule: usize,
    /// The state that it was in.
    pub state: u8,
    /// The state that it came to: 0, or at the end one that is not final.
    pub next: u8,
}

pub struct Tables<'a> {
    pub grammar: &'a Grammar,
    /// Entries by number, each with the place of its lexicon.
    pub entries: Vec<(&'a Entry, usize)>,
    /// The number of each lexicon's first entry.
    pub first: Vec<usize>,
}

impl<'a> Tables<'a> {
    pub fn new(grammar: &'a Grammar) -> Tables<'a> {
        let mut entries = Vec::new();
        let mut first = Vec::new();
        for (at, lexicon) in grammar.lexicons.iter().enumerate() {
            first.push(entries.len());
            entries.extend(lexicon.entries.iter().map(|entry| (entry, at)));
        }
        Tables { grammar, entries, first }
    }

    /// The numbers of a lexicon's entries.
    pub fn entries_of(&self, lexicon: usize) -> std::ops::Range<usize> {
        self.first[lexicon]..self.first[lexicon] + self.grammar.lexicons[lexicon].entries.len()
    }

    /// Whether an entry may follow by some way.
    pub fn goes_on(&self, ways: Ways) -> bool {
        ways.lexicons().any(|lexicon| !self.grammar.lexicons[lexicon].entries.is_empty())
    }

    /// The number that stands for the boundary pair, after those of the listed pairs.
    pub fn boundary(&self) -> usize {
        self.grammar.pairs.len()
    }

    pub fn pair(&self, number: usize) -> Pair {
        self.grammar.pairs.get(number).copied().unwrap_or(BOUNDARY_PAIR)
    }

    /// A pair as the text writes it.
    pub fn show(&self, number: usize) -> String {
        self.pair(number).show(&self.grammar.alphabet)
    }

    /// The column of a rule that a pair takes, as the text writes it.
    pub fn column(&self, rule: usize, pair: usize) -> String {
        let sides = Sides { alphabet: &self.grammar.alphabet, sets: &self.grammar.sets };
        let rule = &self.grammar.rules[rule];
        sides.show_column(rule.columns[rule.taken[pair]])
    }

    /// Every rule in state 1, before the boundary pair.
    pub fn start(&self) -> States {
        let mut states = [0; *limits::RULES.end()];
        states[..self.grammar.rules.len()].fill(1);
        states
    }

    pub fn next(&self, rule: usize, state: u8, pair: usize) -> u8 {
        let rule = &self.grammar.rules[rule];
        rule.states[usize::from(state) - 1].next[rule.taken[pair]]
    }

    /// The states after a pair, or the rules that refuse it.
    pub fn feed(&self, states: &States, pair: usize) -> Result<States, Vec<Refusal>> {
        let mut after = *states;
        let mut refusals = Vec::new();
        for rule in 0..self.grammar.rules.len() {
            let state = states[rule];
            after[rule] = self.next(rule, state, pair);
            if after[rule] == 0 {
                refusals.push(Refusal { rule, state, next: 0 });
            }
        }
        if refusals.is_empty() {
            Ok(after)
        } else {
            Err(refusals)
        }
    }

    /// The rules that a word must not end with, having come to these states.
    pub fn end(&self, states: &States) -> Vec<Refusal> {
        let last = |rule: usize| {
            let state = states[rule];
            Refusal { rule, state, next: self.next(rule, state, self.boundary()) }
        };
        (0..self.grammar.rules.len()).map(last).filter(|refusal| !self.is_final(refusal.rule, refusal.next)).collect()
    }

    fn is_final(&self, rule: usize, state: u8) -> bool {
        state.checked_sub(1).is_some_and(|at| self.grammar.rules[rule].states[usize::from(at)].is_final)
    }

    /// How a rule refuses a pair, in words.
    pub fn told(&self, refusal: &Refusal, pair: usize) -> String {
        let Refusal { rule, state, next } = *refusal;
        let (shown, column) = (self.show(pair), self.column(rule, pair));
        let rule = format!("rule \"{}\" is in state {state} and", self.grammar.rules[rule].name);
        if next == 0 {
            return format!("{rule} refuses {shown}: row {state} has 0 under {column}");
        }
        format!("{rule} goes to {next} by {shown}, where no word may end: {next} is not final")
    }

    /// Where one rule refuses a pairing: the pair that it refuses, the boundary pair at the front and the end, and how.
    pub fn refused_by(&self, rule: usize, pairing: &[usize]) -> Option<(usize, Refusal)> {
        let fed = [self.boundary()].into_iter().chain(pairing.iter().copied()).chain([self.boundary()]);
        let (mut state, mut last) = (1, 1);
        for pair in fed {
            last = state;
            state = self.next(rule, last, pair);
            if state == 0 {
                return Some((pair, Refusal { rule, state: last, next: 0 }));
            }
        }
        let refusal = Refusal { rule, state: last, next: state };
        (!self.is_final(rule, state)).then_some((self.boundary(), refusal))
    }
}

#[cfg(test)]
mod tests {
    use super::*;
    use crate::text::read_grammar;

    /// The rule lets s:s stand neither first nor, after t:t, last.
    const TEXT: &str = "BOUNDARY #\nNULL 0\nANY @\nALPHABET s t\nPAIRS s:s t:t\nRULE \"s\" 4 3\n# s @\n# s @\n1. 2 0 0\n2: 2 0 3\n3: 3 4 3\n4. 4 4 3\nLEXICON Root\ns #\nEND\n";

    #[test]
    fn a_rule_refuses_a_pair_or_an_end() {
        let grammar = read_grammar(TEXT.as_bytes()).unwrap();
        let tables = Tables::new(&grammar);
        let refusal = |state, next| Refusal { rule: 0, state, next };
        assert_eq!(tables.refused_by(0, &[0, 1]), Some((0, refusal(2, 0))));
        assert_eq!(tables.refused_by(0, &[1, 0]), Some((2, refusal(4, 4))));
        assert_eq!(tables.refused_by(0, &[1, 0, 1]), None);
        let begun = tables.feed(&tables.start(), tables.boundary()).unwrap();
        assert_eq!(tables.feed(&begun, 0), Err(vec![refusal(2, 0)]));
        assert_eq!(tables.end(&begun), []);
        assert_eq!((tables.column(0, 1), tables.column(0, 2)), ("@:@".to_string(), "#:#".to_string()));
    }
}
