//! Pairings to judge: all short ones, and longer ones that are drawn near to what rules and tables speak of.

use super::contexts::{Context, BOUNDARY_NUMBER};
use super::kinds::Kinds;
use super::pairings::Pairing;
use super::text::Group;
use crate::text::Grammar;
use crate::why::Tables;

/// Pairs of a pairing at most.
const MOST_PAIRS: usize = 40;
/// Rounds of a star that are drawn, places one after another, and pairs put between what is meant.
const MOST_ROUNDS: usize = 2;
const MOST_PLACES: usize = 3;
const MOST_BETWEEN: usize = 2;
/// Pairs of a walk through a table.
const MOST_STEPS: usize = 12;

/// The length up to which there are at most so many pairings of one pair of each kind.
pub fn longest(kinds: &Kinds, most: usize) -> usize {
    let (mut all, mut last) = (0, 1_usize);
    let fits = |_: &usize| {
        last = last.saturating_mul(kinds.pairs.len());
        all = last.saturating_add(all);
        all <= most
    };
    (1..=MOST_PAIRS).take_while(fits).count()
}

/// Every pairing of that many pairs, one pair of each kind; in order.
pub fn for_each(kinds: &Kinds, length: usize, mut each: impl FnMut(&[u8])) {
    let mut places = vec![0; length];
    loop {
        let pairing: Pairing = places.iter().map(|&place| kinds.pairs[place]).collect();
        each(&pairing);
        // The last place that can go on does, and those after it begin anew.
        let Some(at) = places.iter().rposition(|&place| place + 1 < kinds.pairs.len()) else {
            return;
        };
        places[at] += 1;
        places[at + 1..].fill(0);
    }
}

/// Numbers by chance, the same ones for the same seed (SplitMix64).
pub struct Chance(pub u64);

impl Chance {
    fn below(&mut self, bound: usize) -> usize {
        self.0 = self.0.wrapping_add(0x9E37_79B9_7F4A_7C15);
        let mut mixed = self.0;
        mixed = (mixed ^ (mixed >> 30)).wrapping_mul(0xBF58_476D_1CE4_E5B9);
        mixed = (mixed ^ (mixed >> 27)).wrapping_mul(0x94D0_49BB_1331_11EB);
        ((mixed ^ (mixed >> 31)) % bound as u64) as usize
    }

    fn one<'a, T>(&mut self, of: &'a [T]) -> &'a T {
        &of[self.below(of.len())]
    }
}

/// Draws pairings for a group: places with the contexts of rules around them, or a walk that a table lets pass; half of them
/// with one pair other than meant.
pub struct Drawing<'a> {
    pub group: &'a Group,
    pub grammar: &'a Grammar,
    pub tables: &'a Tables<'a>,
    pub kinds: &'a Kinds,
    pub chance: Chance,
}

impl Drawing<'_> {
    pub fn draw(&mut self) -> Pairing {
        let mut pairing = match self.group.tables.is_empty() || self.chance.below(3) > 0 {
            true => self.places(),
            false => self.walk(),
        };
        if self.chance.below(2) == 0 {
            self.change(&mut pairing);
        }
        pairing.truncate(MOST_PAIRS);
        if pairing.is_empty() {
            pairing.push(self.some_pair());
        }
        pairing
    }

    fn some_pair(&mut self) -> u8 {
        *self.chance.one(&self.kinds.pairs)
    }

    /// Some places one after another, with what rules have around them.
    fn places(&mut self) -> Pairing {
        let mut pairing = Vec::new();
        for _ in 0..1 + self.chance.below(MOST_PLACES) {
            self.put_place(&mut pairing);
        }
        if self.chance.below(2) == 0 {
            self.put_some(&mut pairing);
        }
        pairing
    }

    /// A place of some rule, its left context before it and its right one, or a beginning of it, after it.
    fn put_place(&mut self, pairing: &mut Pairing) {
        let group = self.group;
        let rule = self.chance.one(&group.rules);
        let left = rule.left.as_ref().map_or(Vec::new(), |context| self.run(context));
        match self.chance.below(4) {
            // As at a place that the context does not come before.
            0 => self.put_some(pairing),
            1 if left.first() != Some(&BOUNDARY_NUMBER) => {
                self.put_some(pairing);
                put(&left, pairing);
            }
            _ => put(&left[shared(pairing, &left)..], pairing),
        }
        // The own pair, or another with its lexical letter.
        let lexical = |pair: usize| self.grammar.pairs[pair].lexical;
        let is_other = |pair: &usize| *pair != rule.own && lexical(*pair) == lexical(rule.own);
        let others: Vec<usize> = (0..self.grammar.pairs.len()).filter(is_other).collect();
        let takes_own = others.is_empty() || self.chance.below(2) == 0;
        let place = if takes_own { rule.own } else { *self.chance.one(&others) };
        put(&[place], pairing);
        let right = rule.right.as_ref().map_or(Vec::new(), |context| self.run(context));
        let end = if self.chance.below(2) == 0 { self.chance.below(right.len() + 1) } else { right.len() };
        put(&right[..end], pairing);
    }

    fn put_some(&mut self, pairing: &mut Pairing) {
        for _ in 0..self.chance.below(MOST_BETWEEN + 1) {
            let pair = self.some_pair();
            pairing.push(pair);
        }
    }

    /// A run of pairs that a context matches.
    fn run(&mut self, context: &Context) -> Vec<usize> {
        match context {
            Context::Any => vec![usize::from(self.some_pair())],
            Context::Pairs(numbers, _) => vec![*self.chance.one(numbers)],
            Context::Sequence(parts) => parts.iter().flat_map(|part| self.run(part)).collect(),
            Context::Either(sides) => {
                let side = self.chance.below(sides.len());
                self.run(&sides[side])
            }
            Context::Star(part) => {
                let rounds = self.chance.below(MOST_ROUNDS + 1);
                (0..rounds).flat_map(|_| self.run(part)).collect()
            }
        }
    }

    /// Pairs that a table lets pass, as far as it does.
    fn walk(&mut self) -> Pairing {
        let group = self.group;
        let table = *self.chance.one(&group.tables);
        let mut state = self.tables.next(table, 1, self.tables.boundary());
        let mut pairing = Vec::new();
        for _ in 0..1 + self.chance.below(MOST_STEPS) {
            let next = |pair: u8| self.tables.next(table, state, usize::from(pair));
            let passing: Vec<u8> = match state {
                0 => Vec::new(),
                _ => self.kinds.pairs.iter().copied().filter(|&pair| next(pair) != 0).collect(),
            };
            if passing.is_empty() {
                break;
            }
            let pair = *self.chance.one(&passing);
            state = self.tables.next(table, state, usize::from(pair));
            pairing.push(pair);
        }
        pairing
    }

    /// One pair changed, put in or taken away.
    fn change(&mut self, pairing: &mut Pairing) {
        let at = self.chance.below(pairing.len() + 1);
        let pair = self.some_pair();
        match self.chance.below(3) {
            0 if at < pairing.len() => pairing[at] = pair,
            1 if at < pairing.len() => drop(pairing.remove(at)),
            _ => pairing.insert(at, pair),
        }
    }
}

/// How many of the first pairs of a run a pairing ends with.
fn shared(pairing: &[u8], run: &[usize]) -> usize {
    let ends_with = |count: &usize| {
        let end = &pairing[pairing.len() - count..];
        end.iter().zip(run).all(|(&pair, &other)| usize::from(pair) == other)
    };
    (0..=run.len().min(pairing.len())).rev().find(ends_with).unwrap_or(0)
}

/// Puts pairs that may stand in a pairing; the boundary is at its ends without being there.
fn put(pairs: &[usize], pairing: &mut Pairing) {
    pairing.extend(pairs.iter().filter(|&&pair| pair != BOUNDARY_NUMBER).map(|&pair| pair as u8));
}

#[cfg(test)]
mod tests {
    use super::*;
    use crate::text::{read_grammar, sealed_image};
    use crate::written_rules::{read_rules, Judge};

    const LUZ: &str = include_str!("../../../grammars/luz.txt");

    #[test]
    fn all_short_pairings_are_made_and_long_ones_drawn_where_rules_apply() {
        let grammar = read_grammar(LUZ.as_bytes()).unwrap();
        let judge = Judge::new(&sealed_image(&grammar));
        let rules = read_rules(b"RULE 0\nZ:c <=> # l u _ +:0 (e:e s*)* #", &grammar, &judge).unwrap();
        let group = &rules.0[0];
        let kinds = Kinds::of(group, &grammar);
        // Each pair but c:c is named, so that each is a kind.
        assert_eq!(kinds.pairs.len(), 8);
        assert_eq!([0, 7, 8, 71, 72, 583, 584].map(|most| longest(&kinds, most)), [0, 0, 1, 1, 2, 2, 3]);
        let mut all = Vec::new();
        for_each(&kinds, 2, |pairing| all.push(pairing.to_vec()));
        let right: Vec<Pairing> = (0..64).map(|number| vec![number / 8, number % 8]).collect();
        assert_eq!(all, right);

        let tables = Tables::new(&grammar);
        let draw = |seed| {
            let mut drawing =
                Drawing { group, grammar: &grammar, tables: &tables, kinds: &kinds, chance: Chance(seed) };
            (0..1000).map(|_| drawing.draw()).collect::<Vec<Pairing>>()
        };
        let drawn = draw(1);
        assert_eq!(drawn, draw(1));
        assert_ne!(drawn, draw(2));
        assert!(drawn.iter().all(|pairing| (1..=MOST_PAIRS).contains(&pairing.len())));
        // The place with its contexts, of which chance alone would draw one in 8 to the sixth.
        let whole = drawn.iter().filter(|pairing| pairing[..] == [3, 5, 6, 0, 2, 4]).count();
        assert!(whole > 1, "{whole}");
    }
}
