//! Holds the tables of a group against its written rules: on pairings that are given, or on short and drawn ones.

use super::drawing::{for_each, longest, Chance, Drawing};
use super::judge::Judge;
use super::kinds::Kinds;
use super::pairings::Pairing;
use super::text::Group;
use crate::text::Grammar;
use crate::why::{Refusal, Tables};
use std::collections::HashSet;

/// Differences that are told of a group.
pub const MOST_TOLD: usize = 5;
/// Draws for each pairing that is wanted, after which those that came have to do.
const DRAWS_FOR_ONE: usize = 8;

/// What tables and written rules say of a pairing.
#[derive(Debug)]
pub struct Judged {
    pub pairing: Pairing,
    /// How the first table that refuses it does: the pair, the rule and its state. None where all let it pass.
    pub refused: Option<(usize, Refusal)>,
    /// The places in the group of the written rules that it does not obey.
    pub disobeyed: Vec<usize>,
}

/// What came of holding a group.
#[derive(Debug, Default)]
pub struct Held {
    /// Pairings that were judged.
    pub count: usize,
    /// All pairings of up to so many pairs were, one pair for each kind; 0 where pairings were given.
    pub longest: usize,
    /// How many of the pairings are judged differently.
    pub different: usize,
    /// Some of them, the shortest first.
    pub told: Vec<Judged>,
}

/// Which pairings are judged.
pub enum Asked<'a> {
    Given(&'a [Pairing]),
    Drawn { count: usize, seed: u64 },
}

pub struct Holder<'a> {
    pub judge: &'a Judge,
    pub grammar: &'a Grammar,
    pub tables: &'a Tables<'a>,
}

impl Holder<'_> {
    /// How the first table of the group that refuses a pairing does.
    pub fn refused(&self, group: &Group, pairing: &[u8]) -> Option<(usize, Refusal)> {
        let pairing: Vec<usize> = pairing.iter().map(|&pair| usize::from(pair)).collect();
        group.tables.iter().find_map(|&table| self.tables.refused_by(table, &pairing))
    }

    /// The written rules that a pairing does not obey. What is asked is read already, and no more refused.
    pub fn disobeyed(&self, group: &Group, pairing: &[u8]) -> Vec<usize> {
        let obeys = |at: &usize| self.judge.obeys(pairing, group.rules[*at].numbers.as_bytes()) == Ok(true);
        (0..group.rules.len()).filter(|at| !obeys(at)).collect()
    }

    pub fn judged(&self, group: &Group, pairing: Pairing) -> Judged {
        let (refused, disobeyed) = (self.refused(group, &pairing), self.disobeyed(group, &pairing));
        Judged { pairing, refused, disobeyed }
    }

    pub fn hold(&self, group: &Group, asked: &Asked) -> Held {
        let kinds = Kinds::of(group, self.grammar);
        let (text, is_given) = (group.numbers(), matches!(asked, Asked::Given(_)));
        let mut holding = Holding { holder: self, group, text, kinds: &kinds, is_given, held: Held::default() };
        match *asked {
            Asked::Given(pairings) => pairings.iter().for_each(|pairing| holding.judge(pairing)),
            Asked::Drawn { count, seed } => holding.draw(count, seed),
        }
        holding.held
    }
}

struct Holding<'a> {
    holder: &'a Holder<'a>,
    group: &'a Group,
    text: Vec<u8>,
    kinds: &'a Kinds,
    /// Somebody gave the pairings, and finds them told as they are.
    is_given: bool,
    held: Held,
}

impl Holding<'_> {
    /// All short pairings, and as many longer ones as are left of the count.
    fn draw(&mut self, count: usize, seed: u64) {
        let kinds = self.kinds;
        self.held.longest = longest(kinds, count / 2);
        (1..=self.held.longest).for_each(|length| for_each(kinds, length, |pairing| self.judge(pairing)));
        let Holder { grammar, tables, .. } = *self.holder;
        let mut drawing = Drawing { group: self.group, grammar, tables, kinds: self.kinds, chance: Chance(seed) };
        let mut drawn = HashSet::new();
        // Some come again, and where few can be drawn no others do.
        for _ in 0..DRAWS_FOR_ONE * (count - self.held.count) {
            let pairing = drawing.draw();
            let plain = kinds.plain(&pairing);
            if plain.len() > self.held.longest && drawn.insert(plain) {
                self.judge(&pairing);
            }
            if self.held.count == count {
                break;
            }
        }
    }

    fn differs(&self, pairing: &[u8]) -> bool {
        let passes = self.holder.refused(self.group, pairing).is_none();
        self.holder.judge.obeys(pairing, &self.text) != Ok(passes)
    }

    fn judge(&mut self, pairing: &[u8]) {
        self.held.count += 1;
        if !self.differs(pairing) {
            return;
        }
        self.held.different += 1;
        if self.held.told.len() >= MOST_TOLD {
            return;
        }
        if self.is_given {
            self.held.told.push(self.holder.judged(self.group, pairing.to_vec()));
        } else if !self.is_told(pairing) {
            let shrunk = self.shrunk(pairing);
            if !self.is_told(&shrunk) {
                self.held.told.push(self.holder.judged(self.group, shrunk));
                self.held.told.sort_by_key(|difference| difference.pairing.len());
            }
        }
    }

    /// Whether a difference that is told stands in a pairing, which then needs no words of its own.
    fn is_told(&self, pairing: &[u8]) -> bool {
        let plain = self.kinds.plain(pairing);
        self.held.told.iter().any(|other| {
            let other = self.kinds.plain(&other.pairing);
            plain.windows(other.len()).any(|part| part == other)
        })
    }

    /// A part of a pairing that is judged differently still, and of which no pair can be taken away.
    fn shrunk(&self, pairing: &[u8]) -> Pairing {
        let mut left = pairing.to_vec();
        let mut at = 0;
        while at < left.len() {
            let mut fewer = left.clone();
            fewer.remove(at);
            if !fewer.is_empty() && self.differs(&fewer) {
                left = fewer;
                at = 0;
            } else {
                at += 1;
            }
        }
        left
    }
}
