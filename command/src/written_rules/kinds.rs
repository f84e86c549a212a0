//! The kinds of pairs that some tables and some written rules tell apart.

use super::contexts::Context;
use super::text::Group;
use crate::text::Grammar;

/// A pair of each kind, and the kind of each pair. Pairs of one kind take the same columns, stand for the same in every
/// context, and are the own pair, or have its lexical letter, together or not at all: so no verdict depends on which of them
/// stands in a pairing.
pub struct Kinds {
    pub pairs: Vec<u8>,
    of: Vec<usize>,
}

impl Kinds {
    pub fn of(group: &Group, grammar: &Grammar) -> Kinds {
        let contexts = || group.rules.iter().flat_map(|rule| [&rule.left, &rule.right]).flatten();
        let named: Vec<&[usize]> = contexts().flat_map(Context::named).map(|(numbers, _)| numbers).collect();
        let marks = |pair: usize| -> Vec<usize> {
            let columns = group.tables.iter().map(|&table| grammar.rules[table].taken[pair]);
            let own = group.rules.iter().flat_map(|rule| {
                let is_alike = grammar.pairs[rule.own].lexical == grammar.pairs[pair].lexical;
                [usize::from(rule.own == pair), usize::from(is_alike)]
            });
            columns.chain(own).chain(named.iter().map(|numbers| usize::from(numbers.contains(&pair)))).collect()
        };
        let mut kinds: Vec<(Vec<usize>, u8)> = Vec::new();
        let mut of = Vec::new();
        for pair in 0..grammar.pairs.len() {
            let marks = marks(pair);
            let kind = kinds.iter().position(|(other, _)| *other == marks).unwrap_or(kinds.len());
            if kind == kinds.len() {
                kinds.push((marks, pair as u8));
            }
            of.push(kind);
        }
        Kinds { pairs: kinds.into_iter().map(|(_, pair)| pair).collect(), of }
    }

    /// The same pairing with one pair for each kind.
    pub fn plain(&self, pairing: &[u8]) -> Vec<u8> {
        pairing.iter().map(|&pair| self.pairs[self.of[usize::from(pair)]]).collect()
    }
}

#[cfg(test)]
mod tests {
    use super::*;
    use crate::text::{read_grammar, sealed_image};
    use crate::why::Tables;
    use crate::written_rules::{read_rules, Judge};

    const LUZ: &str = include_str!("../../../grammars/luz.txt");

    #[test]
    fn no_verdict_depends_on_which_pair_of_a_kind_there_is() {
        let grammar = read_grammar(LUZ.as_bytes()).unwrap();
        let judge = Judge::new(&sealed_image(&grammar));
        let tables = Tables::new(&grammar);
        for (text, count) in [
            ("Z:c <=> _ +:0 e:e", 5),
            ("Z:c <= _ (e|s) .", 5),
            ("e /<= l _ (u | s)* #", 5),
            ("c:c => Z: _\nl => _ u c*", 5),
            ("RULE 0\ne /<= l _", 6),
        ] {
            let rules = read_rules(text.as_bytes(), &grammar, &judge).unwrap();
            let group = &rules.0[0];
            let kinds = Kinds::of(group, &grammar);
            assert_eq!(kinds.pairs.len(), count, "{text}");
            let verdicts = |pairing: &[u8]| {
                let numbers: Vec<usize> = pairing.iter().map(|&pair| usize::from(pair)).collect();
                let refused = group.tables.iter().any(|&table| tables.refused_by(table, &numbers).is_some());
                (refused, judge.obeys(pairing, &group.numbers()))
            };
            for number in 0..8 * 8 * 8 * 8 {
                let pairing = [0, 1, 2, 3].map(|place| (number >> (3 * place) & 7) as u8);
                assert_eq!(verdicts(&pairing), verdicts(&kinds.plain(&pairing)), "{text} {pairing:?}");
            }
        }
    }
}
