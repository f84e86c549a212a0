//! Whether a table and rules judge every pairing alike is decided: both are followed pair by pair, and what there is to remember has only so many values.

use other_engine::grammar::{Grammar, Table};
use other_engine::written_rules::{Operator, Rule, BOUNDARY_PAIR};
use std::collections::{BTreeMap, BTreeSet, VecDeque};

/// What a rule remembers of the pairs so far.
#[derive(Clone, PartialEq, Eq, PartialOrd, Ord)]
struct Followed {
    broken: bool,
    /// Whether the left context holds before the next pair, and the atoms of it that may match that pair.
    left_holds: bool,
    left: u64,
    /// Of right contexts that have to match, and of those that must not, the atoms that may match the next pair, for each place.
    must: BTreeSet<u64>,
    must_not: BTreeSet<u64>,
}

impl Followed {
    fn start(rule: &Rule) -> Followed {
        Followed {
            broken: false,
            left_holds: rule.left.matches_empty(),
            left: rule.left.first(),
            must: BTreeSet::new(),
            must_not: BTreeSet::new(),
        }
    }

    /// What is remembered after one pair more.
    fn fed(&self, rule: &Rule, grammar: &Grammar, pair: u16) -> Followed {
        let mut next = Followed {
            must: BTreeSet::new(),
            must_not: BTreeSet::new(),
            ..self.clone()
        };
        for &atoms in &self.must {
            match rule.right.after(atoms, pair) {
                (true, _) => {}
                (false, 0) => next.broken = true,
                (false, atoms) => drop(next.must.insert(atoms)),
            }
        }
        for &atoms in &self.must_not {
            match rule.right.after(atoms, pair) {
                (true, _) => next.broken = true,
                (false, atoms) => drop(next.must_not.insert(atoms)),
            }
        }
        if pair != BOUNDARY_PAIR {
            next.ask(rule, grammar, pair);
        }
        let (ends, atoms) = rule.left.after(self.left, pair);
        next.left_holds = ends || rule.left.matches_empty();
        next.left = atoms | rule.left.first();
        next
    }

    /// What the rule asks at a place, where the pair before it is the last that the left context knows of.
    fn ask(&mut self, rule: &Rule, grammar: &Grammar, pair: u16) {
        let lexical = |pair: u16| grammar.pairs[usize::from(pair)].0;
        let is_own = pair == rule.own;
        let only = matches!(
            rule.operator,
            Operator::OnlyThere | Operator::OnlyAndAlwaysThere
        );
        let always = matches!(
            rule.operator,
            Operator::AlwaysThere | Operator::OnlyAndAlwaysThere
        );
        let must = is_own && only;
        let must_not = is_own && rule.operator == Operator::NeverThere
            || !is_own && always && lexical(pair) == lexical(rule.own);
        let at_once = rule.right.matches_empty();
        if !self.left_holds {
            self.broken |= must;
        } else if must && !at_once {
            self.must.insert(rule.right.first());
        } else if must_not {
            self.broken |= at_once;
            self.must_not.insert(rule.right.first());
        }
    }

    /// Whether the rule is kept by a pairing that ends here.
    fn kept(&self, rule: &Rule, grammar: &Grammar) -> bool {
        let end = self.fed(rule, grammar, BOUNDARY_PAIR);
        !end.broken && end.must.is_empty()
    }
}

/// What a table and rules remember together.
#[derive(Clone, PartialEq, Eq, PartialOrd, Ord)]
struct Both {
    state: u8,
    rules: Vec<Followed>,
    given: Vec<Followed>,
}

/// A table, rules, and the rules that a pairing has to keep for the two to be alike.
pub struct Beside<'a> {
    pub grammar: &'a Grammar,
    pub table: &'a Table,
    pub rules: &'a [Rule],
    pub given: &'a [Rule],
}

impl Beside<'_> {
    fn next_state(&self, state: u8, pair: usize) -> u8 {
        match usize::from(state).checked_sub(1) {
            Some(row) => self.table.rows[row][self.table.takes[pair]],
            None => 0,
        }
    }

    fn fed(&self, both: &Both, pair: u16) -> Both {
        let column = usize::from(pair).min(self.grammar.pairs.len());
        let fed = |followed: &[Followed], rules: &[Rule]| -> Vec<Followed> {
            let each = followed.iter().zip(rules);
            each.map(|(followed, rule)| followed.fed(rule, self.grammar, pair))
                .collect()
        };
        Both {
            state: self.next_state(both.state, column),
            rules: fed(&both.rules, self.rules),
            given: fed(&both.given, self.given),
        }
    }

    fn all_kept(&self, followed: &[Followed], rules: &[Rule]) -> bool {
        let mut each = followed.iter().zip(rules);
        each.all(|(followed, rule)| followed.kept(rule, self.grammar))
    }

    /// How many things there are to remember, or a shortest pairing of these pairs that the two judge differently.
    pub fn decided(&self, pairs: &[u8]) -> Result<usize, Vec<u8>> {
        let start = |rules: &[Rule]| rules.iter().map(Followed::start).collect();
        let start = Both {
            state: 1,
            rules: start(self.rules),
            given: start(self.given),
        };
        let start = self.fed(&start, BOUNDARY_PAIR);
        let mut known = BTreeMap::from([(start.clone(), Vec::new())]);
        let mut waiting = VecDeque::from([start]);
        while let Some(both) = waiting.pop_front() {
            for &pair in pairs {
                let next = self.fed(&both, u16::from(pair));
                if next.given.iter().any(|given| given.broken) || known.contains_key(&next) {
                    continue;
                }
                let pairing = [&known[&both][..], &[pair]].concat();
                let last = self.next_state(next.state, self.grammar.pairs.len());
                let passes = last > 0 && self.table.finals[usize::from(last) - 1] == 1;
                let is_given = self.all_kept(&next.given, self.given);
                if is_given && passes != self.all_kept(&next.rules, self.rules) {
                    return Err(pairing);
                }
                known.insert(next.clone(), pairing);
                waiting.push_back(next);
            }
        }
        Ok(known.len())
    }
}
