//! Texts of written rules are of several sorts: by the fault that they were given, and those that are judged by what stands in them and what becomes of it.

use crate::met::met;
use draw::rule_faults::{Fault, FAULTS};
use other_engine::contexts::{MOST_BYTES, MOST_DEPTH};
use other_engine::grammar::{Grammar, NULL};
use other_engine::listing::refused;
use other_engine::written_rules::{self, Operator, Rule, MOST_RULES};

/// The sorts of texts that are judged.
const OF_JUDGED: [&str; 21] = [
    "no rule",
    "32 rules kept",
    "32 rules of which one is broken",
    "the last line's end",
    "no end of the last line",
    "40 pairs",
    "a left context of 64 bytes",
    "a right context of 64 bytes",
    "depth 8",
    "a star on a star",
    "the boundary in a context",
    "the last pair in a context",
    "<= broken by a lexical null",
    "=> kept",
    "=> broken",
    "<= kept",
    "<= broken",
    "<=> kept",
    "<=> broken",
    "/<= kept",
    "/<= broken",
];

/// The sorts of texts that should be met: those that are judged, then the faults.
pub const SORTS: [&str; OF_JUDGED.len() + FAULTS.len()] = {
    let mut sorts = [""; OF_JUDGED.len() + FAULTS.len()];
    let mut place = 0;
    while place < sorts.len() {
        sorts[place] = if place < OF_JUDGED.len() {
            OF_JUDGED[place]
        } else {
            FAULTS[place - OF_JUDGED.len()].name
        };
        place += 1;
    }
    sorts
};

/// A text that was judged or refused, after tests 1 to 14 and 13.
pub struct Judged<'a> {
    pub grammar: &'a Grammar,
    pub pairing: &'a [u8],
    pub text: &'a [u8],
    pub fault: Option<Fault>,
    pub reply: u64,
}

impl Judged<'_> {
    /// The fault that the text was made for, where it got another reply than that.
    pub fn wanted_in_vain(&self) -> Option<&'static str> {
        let fault = self.fault?;
        (self.reply != refused(fault.refusal)).then_some(fault.name)
    }

    /// The sorts that the text is of.
    pub fn sorts(&self) -> Vec<&'static str> {
        if let Some(fault) = self.fault {
            return vec![fault.name];
        }
        match written_rules::read(self.text) {
            Some(rules) if self.reply < 2 => self.of_judged(&rules),
            _ => Vec::new(),
        }
    }

    fn of_judged(&self, rules: &[Rule]) -> Vec<&'static str> {
        let is_full = rules.len() == MOST_RULES;
        let broken = || {
            rules
                .iter()
                .filter(|rule| !rule.kept(self.grammar, self.pairing))
        };
        let contexts: Vec<[&[u8]; 2]> = self
            .text
            .split(|&byte| byte == b'\n')
            .filter_map(sides)
            .collect();
        let some = |is: &dyn Fn(&[u8]) -> bool| contexts.iter().flatten().any(|text| is(text));
        let has = |part: &[u8]| some(&|text| text.windows(part.len()).any(|window| window == part));
        let last = format!("{:03}", self.grammar.pairs.len() - 1);
        let by_null = |rule: &Rule| {
            let lexical = self.grammar.pairs[usize::from(rule.own)].0;
            rule.operator == Operator::AlwaysThere && lexical == NULL
        };
        let mut sorts = met(&[
            ("no rule", rules.is_empty()),
            ("32 rules kept", is_full && self.reply == 1),
            (
                "32 rules of which one is broken",
                is_full && broken().count() == 1,
            ),
            ("the last line's end", self.text.ends_with(b"\n")),
            (
                "no end of the last line",
                !rules.is_empty() && !self.text.ends_with(b"\n"),
            ),
            ("40 pairs", self.pairing.len() == 40),
            (
                "a left context of 64 bytes",
                contexts.iter().any(|sides| sides[0].len() == MOST_BYTES),
            ),
            (
                "a right context of 64 bytes",
                contexts.iter().any(|sides| sides[1].len() == MOST_BYTES),
            ),
            ("depth 8", some(&|text| depth(text) == MOST_DEPTH)),
            ("<= broken by a lexical null", broken().any(by_null)),
            ("a star on a star", has(b"**")),
            ("the boundary in a context", has(b"255")),
            ("the last pair in a context", has(last.as_bytes())),
        ]);
        if let [rule] = rules {
            sorts.extend(self.of_one(rule));
        }
        sorts
    }

    /// Of a text of one rule, where it has something to say of the pairing.
    fn of_one(&self, rule: &Rule) -> Option<&'static str> {
        let lexical = |pair: u16| self.grammar.pairs[usize::from(pair)].0;
        let letter = lexical(rule.own);
        let mut letters = self.pairing.iter().map(|&pair| lexical(u16::from(pair)));
        if !letters.any(|other| other == letter) {
            return None;
        }
        let is_kept = self.reply == 1;
        Some(match rule.operator {
            Operator::OnlyThere if is_kept => "=> kept",
            Operator::OnlyThere => "=> broken",
            Operator::AlwaysThere if is_kept => "<= kept",
            Operator::AlwaysThere => "<= broken",
            Operator::OnlyAndAlwaysThere if is_kept => "<=> kept",
            Operator::OnlyAndAlwaysThere => "<=> broken",
            Operator::NeverThere if is_kept => "/<= kept",
            Operator::NeverThere => "/<= broken",
        })
    }
}

/// The left and the right context of a rule's line.
fn sides(line: &[u8]) -> Option<[&[u8]; 2]> {
    let contexts = line.rsplit(|&byte| byte == b' ').next()?;
    let mut sides = contexts.split(|&byte| byte == b'_');
    Some([sides.next()?, sides.next()?])
}

/// Brackets one in another.
fn depth(text: &[u8]) -> usize {
    let steps = text.iter().scan(0_usize, |depth, byte| {
        match byte {
            b'(' => *depth += 1,
            b')' => *depth -= 1,
            _ => {}
        }
        Some(*depth)
    });
    steps.max().unwrap_or(0)
}
