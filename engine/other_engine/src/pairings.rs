//! Pairings are listed whole, by their letters and nulls alone, and no rule is asked before a pairing is complete.

use crate::grammar::{Grammar, NULL};

/// What a call may spend: about one unit for each beginning of a path with a beginning of a pairing.
pub struct Budget(u64);

/// The budget is spent.
#[derive(Clone, Copy, Debug, PartialEq, Eq)]
pub struct TooBig;

/// The units of one call.
pub const UNITS: u64 = 100_000;

impl Default for Budget {
    fn default() -> Self {
        Budget::of(UNITS)
    }
}

impl Budget {
    /// So many units.
    pub fn of(units: u64) -> Budget {
        Budget(units)
    }

    /// Takes units off, or says that they are not there.
    pub fn take(&mut self, units: u64) -> Result<(), TooBig> {
        self.0 = self.0.checked_sub(units).ok_or(TooBig)?;
        Ok(())
    }
}

/// How many beginnings of pairings use up some lexical letters, by surface letters spelled and lexical nulls used.
#[derive(Clone)]
pub struct Ways {
    counts: Vec<[u64; 9]>,
    lexical: usize,
}

impl Ways {
    /// The one beginning without pairs, for a word of this length.
    pub fn none_paired(length: usize) -> Ways {
        let mut counts = vec![[0; 9]; length + 1];
        counts[0][0] = 1;
        Ways { counts, lexical: 0 }
    }

    /// All beginnings together.
    pub fn total(&self) -> u64 {
        self.counts
            .iter()
            .flatten()
            .fold(0, |sum, &n| sum.saturating_add(n))
    }

    /// Those that have spelled the whole word.
    pub fn at_end(&self) -> u64 {
        self.counts[self.counts.len() - 1]
            .iter()
            .fold(0, |sum, &n| sum.saturating_add(n))
    }

    /// Adds the beginnings that go on with lexical-null pairs.
    pub fn insert(&mut self, grammar: &Grammar, word: &[u8]) {
        for (spelled, &letter) in word.iter().enumerate() {
            if grammar.inserts(letter) {
                for nulls in 0..8 {
                    let more = self.counts[spelled][nulls];
                    let cell = &mut self.counts[spelled + 1][nulls + 1];
                    *cell = cell.saturating_add(more);
                }
            }
        }
    }

    /// The beginnings that go on with lexical-null pairs, if any, and then one pair of this lexical letter.
    pub fn with_letter(&self, grammar: &Grammar, letter: u8, word: &[u8]) -> Ways {
        let mut before = self.clone();
        before.insert(grammar, word);
        let lexical = self.lexical + 1;
        let mut counts = vec![[0u64; 9]; word.len() + 1];
        let deletes = grammar.pair_number(letter, NULL).is_some();
        for (spelled, by_nulls) in before.counts.iter().enumerate() {
            let next = word.get(spelled);
            let pairs = next.is_some_and(|&y| grammar.pair_number(letter, y).is_some());
            for (nulls, &ways) in by_nulls.iter().enumerate() {
                if pairs {
                    counts[spelled + 1][nulls] = counts[spelled + 1][nulls].saturating_add(ways);
                }
                // The surface nulls are the pairs less the surface letters.
                if deletes && lexical + nulls <= spelled + 8 {
                    counts[spelled][nulls] = counts[spelled][nulls].saturating_add(ways);
                }
            }
        }
        Ways { counts, lexical }
    }
}

/// A pairing being written out, with its nulls on each level.
struct Writing<'a> {
    grammar: &'a Grammar,
    joined: &'a [u8],
    pairing: Vec<u8>,
    found: Vec<Vec<u8>>,
}

impl Writing<'_> {
    /// Every way to go on from here to a whole pairing of the joined forms and the word.
    fn against(&mut self, word: &[u8], lexical: usize, surface: usize, nulls: (usize, usize)) {
        if lexical == self.joined.len() && surface == word.len() {
            self.found.push(self.pairing.clone());
            return;
        }
        let x = self.joined.get(lexical).copied();
        let y = word.get(surface).copied();
        if let (Some(x), Some(y)) = (x, y) {
            if let Some(pair) = self.grammar.pair_number(x, y) {
                self.pairing.push(pair);
                self.against(word, lexical + 1, surface + 1, nulls);
                self.pairing.pop();
            }
        }
        if let (Some(x), true) = (x, nulls.1 < 8) {
            if let Some(pair) = self.grammar.pair_number(x, NULL) {
                self.pairing.push(pair);
                self.against(word, lexical + 1, surface, (nulls.0, nulls.1 + 1));
                self.pairing.pop();
            }
        }
        if let (Some(y), true) = (y, nulls.0 < 8) {
            if let Some(pair) = self.grammar.pair_number(NULL, y) {
                self.pairing.push(pair);
                self.against(word, lexical, surface + 1, (nulls.0 + 1, nulls.1));
                self.pairing.pop();
            }
        }
    }

    /// Every way to go on from here to a whole pairing of the joined forms, whatever it spells.
    fn freely(&mut self, lexical: usize, spelled: usize, nulls: (usize, usize)) {
        if lexical == self.joined.len() {
            self.found.push(self.pairing.clone());
        }
        for (number, &(x, y)) in self.grammar.pairs.iter().enumerate() {
            let takes = x != NULL;
            if takes && self.joined.get(lexical) != Some(&x) {
                continue;
            }
            let next = (
                nulls.0 + usize::from(!takes),
                nulls.1 + usize::from(y == NULL),
            );
            let letters = spelled + usize::from(y != NULL);
            if next.0 <= 8 && next.1 <= 8 && letters <= 32 {
                self.pairing.push(number as u8);
                self.freely(lexical + usize::from(takes), letters, next);
                self.pairing.pop();
            }
        }
    }
}

impl Grammar {
    /// Every pairing whose lexical sides spell the joined forms and whose surface sides spell the word, nulls within limits.
    pub fn pairings_against(&self, joined: &[u8], word: &[u8]) -> Vec<Vec<u8>> {
        let mut writing = Writing {
            grammar: self,
            joined,
            pairing: Vec::new(),
            found: Vec::new(),
        };
        writing.against(word, 0, 0, (0, 0));
        writing.found
    }

    /// Every pairing whose lexical sides spell the joined forms, nulls and letters within limits.
    pub fn pairings_of(&self, joined: &[u8]) -> Vec<Vec<u8>> {
        let mut writing = Writing {
            grammar: self,
            joined,
            pairing: Vec::new(),
            found: Vec::new(),
        };
        writing.freely(0, 0, (0, 0));
        writing.found
    }

    /// How many beginnings of pairings these joined forms have, rules aside, added up without writing them out.
    pub fn pairing_work(&self, joined: &[u8]) -> u64 {
        let count = |fits: &dyn Fn(u8, u8) -> bool| {
            self.pairs.iter().filter(|p| fits(p.0, p.1)).count() as u64
        };
        let insertions = count(&|x, _| x == NULL);
        // By letters spelled and lexical nulls used; the surface nulls follow from both.
        let mut ways = [[0u64; 9]; 33];
        ways[0][0] = 1;
        let mut total = 0u64;
        for at in 0..=joined.len() {
            for spelled in 0..32 {
                for nulls in 0..8 {
                    let more = ways[spelled][nulls].saturating_mul(insertions);
                    let cell = &mut ways[spelled + 1][nulls + 1];
                    *cell = cell.saturating_add(more);
                }
            }
            total = ways
                .iter()
                .flatten()
                .fold(total, |sum, &n| sum.saturating_add(n));
            let Some(&letter) = joined.get(at) else { break };
            let deletes = count(&|x, y| x == letter && y == NULL);
            let spells = count(&|x, y| x == letter && y != NULL);
            let mut next = [[0u64; 9]; 33];
            for spelled in 0..33 {
                for nulls in 0..9 {
                    let here = ways[spelled][nulls];
                    if spelled < 32 {
                        let cell = &mut next[spelled + 1][nulls];
                        *cell = cell.saturating_add(here.saturating_mul(spells));
                    }
                    if at + 1 + nulls <= spelled + 8 {
                        let cell = &mut next[spelled][nulls];
                        *cell = cell.saturating_add(here.saturating_mul(deletes));
                    }
                }
            }
            ways = next;
        }
        total
    }
}
