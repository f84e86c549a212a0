//! Faults of texts of written rules: each has its name, the refusal that it is to get, and a way into a text that is otherwise without one.

use crate::context_texts::digits;
use crate::prng::Prng;
use crate::rule_texts::{joined, texts, Line};
use other_engine::contexts::{MOST_BYTES, MOST_DEPTH};
use other_engine::written_rules::{BOUNDARY_PAIR, MOST_RULES};

/// A fault by its name, and the refusal that it is to get.
#[derive(Clone, Copy)]
pub struct Fault {
    pub name: &'static str,
    pub refusal: u8,
}

/// The faults that texts are given: of test 19, of test 20, and of both.
pub const FAULTS: [Fault; 31] = {
    const fn fault(name: &'static str, refusal: u8) -> Fault {
        Fault { name, refusal }
    }
    [
        fault("33 rules", 19),
        fault("a context of 65 bytes", 19),
        fault("brackets to depth 9", 19),
        fault("a lone line end", 19),
        fault("two line ends at the end", 19),
        fault("an empty line", 19),
        fault("a carriage return", 19),
        fault("no such operator", 19),
        fault("no operator", 19),
        fault("a space missing", 19),
        fault("a space doubled", 19),
        fault("an own pair of two digits", 19),
        fault("an own pair of four digits", 19),
        fault("no own pair", 19),
        fault("no underscore", 19),
        fault("two underscores", 19),
        fault("two digits in a context", 19),
        fault("a space in a context", 19),
        fault("an empty side before a bar", 19),
        fault("an empty side after a bar", 19),
        fault("an empty side in brackets", 19),
        fault("empty brackets", 19),
        fault("a star on nothing", 19),
        fault("a star after a bar", 19),
        fault("a bracket left open", 19),
        fault("a bracket that was not open", 19),
        fault("another byte in a context", 19),
        fault("the boundary as own pair", 20),
        fault("an own pair that is not listed", 20),
        fault("a pair in a context that is not listed", 20),
        fault("a pair that is not listed, and a broken rule after it", 19),
    ]
};

/// What contexts with a fault are.
const CONTEXTS: [(&str, &[&str]); 11] = [
    ("two digits in a context", &["00", "00.", "(00)", "00000"]),
    ("a space in a context", &[" ", ". .", "000 ", " 000"]),
    ("an empty side before a bar", &["|000", "|", "|.", "||."]),
    ("an empty side after a bar", &["000|", ".|", ".||.", ".*|"]),
    ("an empty side in brackets", &["(|.)", "(.|)", "((.)|)*"]),
    ("empty brackets", &["()", ".()", "()*", "(())", ".|()"]),
    ("a star on nothing", &["*", "*.", "(*)", "(*.)", "**"]),
    ("a star after a bar", &[".|*", "(.|*)", "000|*000"]),
    ("a bracket left open", &["(", "(.", "((.)", ".(", "(.|."]),
    (
        "a bracket that was not open",
        &[")", ".)", "(.))", ")(", ").("],
    ),
    (
        "another byte in a context",
        &[
            "@", ".+", "#.", "000:000", "[.]", ".-.", "\t", "\0", ".\u{7f}", "a", "O00", "\u{b2}",
        ],
    ),
];

/// What is taken for an operator.
const OPERATORS: [&str; 11] = [
    "=", "<", ">", "==>", "=>=", "<=/", "/=>", "/<=>", "<=>>", "=<", "\u{21d2}",
];

/// A fault, often one of test 20, which has few.
pub(crate) fn any_fault(prng: &mut Prng) -> Fault {
    let of_20: Vec<Fault> = FAULTS
        .into_iter()
        .filter(|fault| fault.refusal == 20)
        .collect();
    if prng.percent(35) {
        prng.one_of(&of_20)
    } else {
        prng.one_of(&FAULTS)
    }
}

impl Fault {
    /// The text of rules, one at least, with the fault in one of them.
    pub(crate) fn put(
        self,
        prng: &mut Prng,
        mut lines: Vec<Line>,
        last_ends: bool,
        pairs: usize,
    ) -> Vec<u8> {
        let number = prng.below(lines.len());
        self.put_into_line(prng, &mut lines[number], pairs);
        let mut texts = texts(&lines);
        match self.name {
            "a lone line end" => return b"\n".to_vec(),
            "33 rules" => {
                let rule = texts[number].clone();
                texts.resize(MOST_RULES + 1, rule);
            }
            "an empty line" => texts.insert(number, Vec::new()),
            "two line ends at the end" => {
                texts.push(Vec::new());
                return joined(&texts, true);
            }
            "a pair that is not listed, and a broken rule after it" => {
                texts.truncate(MOST_RULES - 1);
                texts.push(b"=> 000 _()".to_vec());
            }
            _ => self.put_into_text(prng, &mut texts[number]),
        }
        joined(&texts, last_ends)
    }

    /// Faults of one part of a rule.
    fn put_into_line(self, prng: &mut Prng, line: &mut Line, pairs: usize) {
        let is_left = prng.percent(50);
        let context = if is_left {
            &mut line.left
        } else {
            &mut line.right
        };
        if let Some((_, texts)) = CONTEXTS.iter().find(|(name, _)| *name == self.name) {
            context.text = prng.one_of(texts).as_bytes().to_vec();
        }
        match self.name {
            "a context of 65 bytes" => {
                *context = context.clone().stretched(MOST_BYTES + 1, is_left)
            }
            "brackets to depth 9" => *context = context.clone().deepened(MOST_DEPTH + 1),
            "a pair in a context that is not listed"
            | "a pair that is not listed, and a broken rule after it" => {
                context.text = digits(unlisted(prng, pairs));
            }
            "no such operator" => line.operator = prng.one_of(&OPERATORS),
            "no operator" => line.operator = "",
            "an own pair of two digits" => line.own = b"00".to_vec(),
            "an own pair of four digits" => line.own = b"0000".to_vec(),
            "no own pair" => line.own = Vec::new(),
            "the boundary as own pair" => line.own = digits(BOUNDARY_PAIR),
            "an own pair that is not listed" => line.own = digits(unlisted(prng, pairs)),
            _ => {}
        }
    }

    /// Faults of what stands between a rule's parts.
    fn put_into_text(self, prng: &mut Prng, text: &mut Vec<u8>) {
        let place_of = |byte: u8| text.iter().position(|&other| other == byte);
        let places = [place_of(b' '), text.iter().rposition(|&byte| byte == b' ')];
        let space = prng.one_of(&places).unwrap_or(0);
        let underscore = place_of(b'_').unwrap_or(0);
        let end = text.len();
        match self.name {
            "a carriage return" => text.push(b'\r'),
            "a space missing" => drop(text.remove(space)),
            "a space doubled" => text.insert(space, b' '),
            "no underscore" => drop(text.remove(underscore)),
            "two underscores" => text.insert(prng.one_of(&[underscore, end]), b'_'),
            _ => {}
        }
    }
}

/// A number that no pair has, and the boundary pair neither.
fn unlisted(prng: &mut Prng, pairs: usize) -> u16 {
    let past = pairs as u16;
    let low = prng.between(pairs, 254) as u16;
    let high = prng.between(256, 999) as u16;
    prng.one_of(&[past, low, 250, 254, 256, high, 999])
}
