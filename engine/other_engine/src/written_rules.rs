//! A written rule is an operator, a pair and two contexts on a line, and is kept or broken at each place of a pairing.

use crate::contexts::{three_digits, Context};
use crate::grammar::Grammar;

/// The rules a text has at most.
pub const MOST_RULES: usize = 32;
/// How the boundary pair is written.
pub const BOUNDARY_PAIR: u16 = 255;

/// What a rule says of its pair and its contexts.
#[derive(Clone, Copy, PartialEq, Eq, Debug)]
pub enum Operator {
    OnlyThere,
    AlwaysThere,
    OnlyAndAlwaysThere,
    NeverThere,
}

impl Operator {
    /// The operators as they are written.
    pub const WRITTEN: [(&'static str, Operator); 4] = [
        ("=>", Operator::OnlyThere),
        ("<=", Operator::AlwaysThere),
        ("<=>", Operator::OnlyAndAlwaysThere),
        ("/<=", Operator::NeverThere),
    ];

    fn read(text: &[u8]) -> Option<Operator> {
        let mut written = Operator::WRITTEN.into_iter();
        let found = written.find(|(name, _)| name.as_bytes() == text)?;
        Some(found.1)
    }
}

/// A written rule.
pub struct Rule {
    pub operator: Operator,
    pub own: u16,
    pub left: Context,
    pub right: Context,
}

/// The rules of a text, if it is one: test 19.
pub fn read(text: &[u8]) -> Option<Vec<Rule>> {
    if text.is_empty() {
        return Some(Vec::new());
    }
    // The last line has its end or lacks it.
    let text = text.strip_suffix(b"\n").unwrap_or(text);
    let lines: Vec<&[u8]> = text.split(|&byte| byte == b'\n').collect();
    if lines.len() > MOST_RULES {
        return None;
    }
    lines.into_iter().map(Rule::read).collect()
}

impl Rule {
    fn read(line: &[u8]) -> Option<Rule> {
        let fields: Vec<&[u8]> = line.split(|&byte| byte == b' ').collect();
        let [operator, own, contexts] = fields[..] else {
            return None;
        };
        let contexts: Vec<&[u8]> = contexts.split(|&byte| byte == b'_').collect();
        let [left, right] = contexts[..] else {
            return None;
        };
        Some(Rule {
            operator: Operator::read(operator)?,
            own: three_digits(own)?,
            left: Context::read(left)?,
            right: Context::read(right)?,
        })
    }

    /// Test 20: the own pair is one of the first so many, and so is every pair of a context, or the boundary pair.
    pub fn names_pairs_below(&self, pairs: usize) -> bool {
        let is_listed = |number: u16| usize::from(number) < pairs;
        let mut others = self.left.numbers().chain(self.right.numbers());
        is_listed(self.own) && others.all(|number| is_listed(number) || number == BOUNDARY_PAIR)
    }

    /// Whether a pairing of listed pairs keeps the rule at each of its places. Where another lexical letter stands no operator asks for anything.
    pub fn kept(&self, grammar: &Grammar, pairing: &[u8]) -> bool {
        let bounded = bounded(pairing);
        let lexical = |pair: u16| grammar.pairs[usize::from(pair)].0;
        let places: Vec<usize> = (1..=pairing.len())
            .filter(|&place| lexical(bounded[place]) == lexical(self.own))
            .collect();
        if places.is_empty() {
            return true;
        }
        let from_each: Vec<Vec<bool>> = (0..bounded.len())
            .map(|start| self.left.matched(&bounded[start..]))
            .collect();
        places.into_iter().all(|place| {
            let left = (0..=place).any(|start| from_each[start][place - start]);
            let right = self.right.matched(&bounded[place + 1..]).contains(&true);
            let there = left && right;
            let is_own = bounded[place] == self.own;
            let only = !is_own || there;
            let always = !there || is_own;
            match self.operator {
                Operator::OnlyThere => only,
                Operator::AlwaysThere => always,
                Operator::OnlyAndAlwaysThere => only && always,
                Operator::NeverThere => !(is_own && there),
            }
        })
    }
}

/// A pairing with the boundary pair at both ends.
fn bounded(pairing: &[u8]) -> Vec<u16> {
    let pairs = pairing.iter().map(|&pair| u16::from(pair));
    let ends = || [BOUNDARY_PAIR].into_iter();
    ends().chain(pairs).chain(ends()).collect()
}
