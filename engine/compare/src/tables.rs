//! Rule tables beside written rules: each claim of a file about a table and some rules is tried on pairings, by the second engine and by the library.

use crate::claims::{claims, written, Claim, Said, Verdicts};
use crate::decided::Beside;
use crate::lent::Lent;
use crate::library;
use draw::prng::Prng;
use other_engine::calls::{judge_rules_reply, Known};
use other_engine::grammar::Grammar;
use other_engine::image::read;
use other_engine::written_rules::{self, Rule};
use std::collections::BTreeMap;
use std::process::exit;

/// How many pairings a table and rules that are alike are tried on by the library: all of the shortest lengths, and longer ones that are drawn.
const SHORTEST: usize = 3_000;
const DRAWN: usize = 2_000;

/// Tries the claims of a file on an image's tables. Exits with 1 at the first that is wrong, and with 2 where there is nothing to try.
pub fn run(image: &[u8], file: &str) {
    let known = read(image);
    let refuse = |what: &str| -> ! {
        eprintln!("{what}");
        exit(2);
    };
    let Ok(grammar) = &known else {
        refuse("the image is refused");
    };
    let claims = claims(grammar, file).unwrap_or_else(|what| refuse(&what));
    let mut prng = Prng::new(1);
    let lent = Lent::new(&mut prng, image);
    let (mut remembered, mut alike, mut unlike) = (0, 0, 0);
    for claim in &claims {
        let texts = [&claim.text, &claim.given].map(|text| written_rules::read(text));
        let is_whole = !claim.text.is_empty() && !claim.said.is_empty();
        let ([Some(rules), Some(given)], true) = (texts, is_whole) else {
            refuse(&format!(
                "no rules, or nothing said of them: {:?}",
                claim.spoken
            ));
        };
        let mut trial = Trial {
            prng: &mut prng,
            known: &known,
            grammar,
            lent: &lent,
            claim,
            rules,
            given,
        };
        for said in &claim.said {
            match said {
                Said::Alike => {
                    let (states, pairings) = trial.alike();
                    remembered += states;
                    alike += pairings;
                }
                Said::Unlike(verdicts, pairing) => {
                    trial.judged(pairing, |found| found == *verdicts);
                    unlike += 1;
                }
            }
        }
    }
    let count = claims.len();
    println!(
        "{count} claims: alike in {remembered} states and by {alike} pairings tried, unlike by {unlike}"
    );
}

/// A claim under trial.
struct Trial<'a> {
    prng: &'a mut Prng,
    known: &'a Known,
    grammar: &'a Grammar,
    lent: &'a Lent,
    claim: &'a Claim,
    rules: Vec<Rule>,
    given: Vec<Rule>,
}

impl Trial<'_> {
    /// Whether the table passes a pairing, and the engine finds the rules kept.
    fn by_engine(&self, pairing: &[u8]) -> Verdicts {
        let table = &self.grammar.tables[self.claim.table];
        let kept = |rule: &Rule| rule.kept(self.grammar, pairing);
        (table.passes(pairing), self.rules.iter().all(kept))
    }

    /// Tries a pairing by the engine and by the library, ends the run where the verdicts are not as they should be, and says whether the table passes it.
    fn judged(&mut self, pairing: &[u8], is_right: impl Fn(Verdicts) -> bool) -> bool {
        let text = &self.claim.text;
        let wanted = judge_rules_reply(self.known, pairing, text);
        let lent = [pairing, text].map(|bytes| Lent::new(self.prng, bytes));
        let reply = library::judge_rules(self.lent, &lent[0], &lent[1]);
        let found = self.by_engine(pairing);
        if reply != wanted || wanted != u64::from(found.1) || !is_right(found) {
            let how = format!("tried, and the library replies {reply} to the rules");
            self.tell(pairing, found, &how);
        }
        found.0
    }

    fn tell(&self, pairing: &[u8], (by_table, by_rules): Verdicts, how: &str) -> ! {
        let verdict = |passes| if passes { "passes" } else { "fails" };
        println!("table {}", self.claim.table + 1);
        for rule in &self.claim.spoken {
            println!("{rule}");
        }
        let (table, rules) = (verdict(by_table), verdict(by_rules));
        let pairing = written(self.grammar, pairing);
        println!("unlike {table} {rules} {pairing}");
        println!("as it was {how}");
        exit(1);
    }

    /// Alike in that both pass all, or fail all, is no agreement.
    fn nothing_to_tell(&self) -> ! {
        println!("every pairing is judged the same: {:?}", self.claim.spoken);
        exit(1);
    }

    /// A pair of each sort that table and rules can tell apart: by its column, by the places in the rules where it is named, and by the rules that have its
    /// lexical letter.
    fn unlike_pairs(&self) -> Vec<u8> {
        let takes = &self.grammar.tables[self.claim.table].takes;
        let lexical = |pair: usize| self.grammar.pairs[pair].0;
        let rules = || self.rules.iter().chain(&self.given);
        let mut unlike = BTreeMap::new();
        for pair in (0..takes.len() - 1).rev() {
            let is_named = |number: u16| usize::from(number) == pair;
            let named: Vec<bool> = rules().flat_map(named).map(is_named).collect();
            let has_letter = |rule: &Rule| lexical(usize::from(rule.own)) == lexical(pair);
            let letters: Vec<bool> = rules().map(has_letter).collect();
            unlike.insert((takes[pair], named, letters), pair as u8);
        }
        unlike.into_values().collect()
    }

    /// Whether a pairing is one of those that the claim is about. One that is not has no longer one that is: a given rule forbids what has come.
    fn is_given(&self, pairing: &[u8]) -> bool {
        let kept = |rule: &Rule| rule.kept(self.grammar, pairing);
        self.given.iter().all(kept)
    }

    /// Decides that table and rules judge alike, tries it, and counts what there was to remember and the pairings.
    fn alike(&mut self) -> (usize, usize) {
        let pairs = self.unlike_pairs();
        let beside = Beside {
            grammar: self.grammar,
            table: &self.grammar.tables[self.claim.table],
            rules: &self.rules,
            given: &self.given,
        };
        let remembered = match beside.decided(&pairs) {
            Ok(remembered) => remembered,
            Err(pairing) => self.tell(&pairing, self.by_engine(&pairing), "decided"),
        };
        let mut shorter = vec![Vec::new()];
        let mut tried = [0; 2];
        while tried[0] + tried[1] < SHORTEST {
            let left = SHORTEST - tried[0] - tried[1];
            let longer = one_longer(&shorter, &pairs).take(left);
            shorter = longer.filter(|pairing| self.is_given(pairing)).collect();
            for pairing in &shorter {
                tried[usize::from(self.judged(pairing, |found| found.0 == found.1))] += 1;
            }
        }
        for _ in 0..DRAWN {
            let pairing = self.drawn(&pairs);
            tried[usize::from(self.judged(&pairing, |found| found.0 == found.1))] += 1;
        }
        if tried.contains(&0) {
            self.nothing_to_tell();
        }
        (remembered, tried[0] + tried[1])
    }

    /// Up to 40 pairs: pieces of the rules as they stand, some with a pair changed.
    fn drawn(&mut self, pairs: &[u8]) -> Vec<u8> {
        let length = self.prng.between(1, 40);
        let mut pairing = Vec::new();
        while pairing.len() < length {
            let rule = &self.rules[self.prng.below(self.rules.len())];
            let mut piece: Vec<u8> = named(rule)
                .filter_map(|number| u8::try_from(number).ok())
                .filter(|&pair| pair < 255)
                .collect();
            piece.truncate(self.prng.between(1, piece.len()));
            piece.drain(..self.prng.below(piece.len()));
            if self.prng.percent(40) {
                let place = self.prng.below(piece.len());
                piece[place] = self.prng.one_of(pairs);
            }
            let longer = [&pairing[..], &piece].concat();
            if self.is_given(&longer) {
                pairing = longer;
            }
        }
        pairing.truncate(length);
        pairing
    }
}

/// The pairings that are one pair longer than these.
fn one_longer<'a>(shorter: &'a [Vec<u8>], pairs: &'a [u8]) -> impl Iterator<Item = Vec<u8>> + 'a {
    let longer = |pairing: &Vec<u8>, pair: u8| [&pairing[..], &[pair]].concat();
    shorter
        .iter()
        .flat_map(move |pairing| pairs.iter().map(move |&pair| longer(pairing, pair)))
}

/// The pair numbers of a rule as they stand around its place.
fn named(rule: &Rule) -> impl Iterator<Item = u16> + '_ {
    let before = rule.left.numbers().chain([rule.own]);
    before.chain(rule.right.numbers())
}
