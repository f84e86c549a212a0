//! Texts of written rules are drawn around the places of a pairing, so that rules of every operator are kept and broken; some stand at a limit, some have
//! one fault, and some one byte that is any.

use crate::context_texts::{digits, ContextText, Named};
use crate::prng::Prng;
use crate::rule_faults::{any_fault, Fault};
use other_engine::calls::{judge_rules, Known};
use other_engine::contexts::{MOST_BYTES, MOST_DEPTH};
use other_engine::grammar::{Grammar, NULL};
use other_engine::written_rules::{Operator, BOUNDARY_PAIR, MOST_RULES};

/// A text, and the fault that it was given, if it has just that one.
pub struct RuleText {
    pub text: Vec<u8>,
    pub fault: Option<Fault>,
}

/// A rule as it is to be written.
pub(crate) struct Line {
    pub(crate) operator: &'static str,
    pub(crate) own: Vec<u8>,
    pub(crate) left: ContextText,
    pub(crate) right: ContextText,
}

impl Line {
    /// The rule's line without its end.
    pub(crate) fn text(&self) -> Vec<u8> {
        let own = &self.own[..];
        let operator = self.operator.as_bytes();
        let (left, right) = (&self.left.text[..], &self.right.text[..]);
        [operator, b" ", own, b" ", left, b"_", right].concat()
    }
}

/// A text for a pairing; of one that is refused, only the pairs that it may have count.
pub fn rules_given(prng: &mut Prng, known: &Known, grammar: &Grammar, pairing: &[u8]) -> RuleText {
    let mut lines = lines(prng, known, grammar, pairing);
    let last_ends = prng.percent(60);
    match prng.weighted(&[62, 26, 12]) {
        0 => RuleText {
            text: joined(&texts(&lines), last_ends),
            fault: None,
        },
        1 => {
            if lines.is_empty() {
                lines.push(any_line(prng, grammar));
            }
            let fault = any_fault(prng);
            RuleText {
                text: fault.put(prng, lines, last_ends, grammar.pairs.len()),
                fault: Some(fault),
            }
        }
        _ => {
            let mut text = joined(&texts(&lines), last_ends);
            change(prng, &mut text);
            RuleText { text, fault: None }
        }
    }
}

/// Bytes for an image that is refused: a rule, or none.
pub fn any_rules(prng: &mut Prng) -> Vec<u8> {
    let texts: [&[u8]; 5] = [b"", b"=> 000 _", b"/<= 255 _", b"\n", b"_"];
    prng.one_of(&texts).to_vec()
}

/// Any pairs of a grammar, mostly few unlike ones and among them some with the same lexical letter, at times the null.
pub fn any_pairing(prng: &mut Prng, grammar: &Grammar) -> Vec<u8> {
    let pairs = grammar.pairs.len();
    let mut few: Vec<u8> = (0..prng.between(1, 3))
        .map(|_| prng.below(pairs) as u8)
        .collect();
    let accompanied: Vec<u8> = (0..pairs as u8)
        .filter(|&pair| !alike(grammar, pair).is_empty())
        .collect();
    let is_null = |&pair: &u8| grammar.pairs[usize::from(pair)].0 == NULL;
    let inserted: Vec<u8> = accompanied.iter().copied().filter(is_null).collect();
    if !inserted.is_empty() && prng.percent(50) {
        few[0] = prng.one_of(&inserted);
    } else if !accompanied.is_empty() && prng.percent(50) {
        few[0] = prng.one_of(&accompanied);
    }
    few.push(one_alike(prng, grammar, few[0]));
    let length = match prng.weighted(&[70, 20, 10]) {
        0 => prng.between(1, 8),
        1 => prng.between(9, 40),
        _ => prng.between(39, 40),
    };
    (0..length).map(|_| prng.one_of(&few)).collect()
}

/// The other pairs with the lexical letter of this one.
fn alike(grammar: &Grammar, pair: u8) -> Vec<u8> {
    let lexical = |pair: u8| grammar.pairs[usize::from(pair)].0;
    (0..grammar.pairs.len() as u8)
        .filter(|&other| other != pair && lexical(other) == lexical(pair))
        .collect()
}

/// Another pair with the lexical letter of this one, or itself where it is alone.
fn one_alike(prng: &mut Prng, grammar: &Grammar, pair: u8) -> u8 {
    let others = alike(grammar, pair);
    if others.is_empty() {
        pair
    } else {
        prng.one_of(&others)
    }
}

/// How many rules a text has: often one, at times none or as many as there may be.
fn count(prng: &mut Prng) -> usize {
    match prng.weighted(&[4, 46, 30, 10, 10]) {
        0 => 0,
        1 => 1,
        2 => prng.between(2, 4),
        3 => prng.between(5, 30),
        _ => prng.between(31, MOST_RULES),
    }
}

/// The rules of a text. Of many some is broken nearly always, so that mostly those that are broken, or all but one of them, are drawn again.
fn lines(prng: &mut Prng, known: &Known, grammar: &Grammar, pairing: &[u8]) -> Vec<Line> {
    let pairs = grammar.pairs.len();
    let listed = |&pair: &u8| usize::from(pair) < pairs;
    let pairing: Vec<u8> = pairing.iter().copied().filter(listed).take(40).collect();
    let count = count(prng);
    let mends = prng.percent(if count > 1 { 80 } else { 20 });
    let spared = prng.percent(30).then(|| prng.below(count.max(1)));
    let kept = |line: &Line| judge_rules(known, &pairing, &line.text()) == Ok(true);
    (0..count)
        .map(|number| {
            let tries = if mends && spared != Some(number) {
                8
            } else {
                1
            };
            let mut drawn = line(prng, grammar, &pairing);
            for _ in 1..tries {
                if kept(&drawn) {
                    break;
                }
                drawn = line(prng, grammar, &pairing);
            }
            drawn
        })
        .collect()
}

fn any_line(prng: &mut Prng, grammar: &Grammar) -> Line {
    let pairing = any_pairing(prng, grammar);
    line(prng, grammar, &pairing)
}

/// A rule around a place of a pairing.
fn line(prng: &mut Prng, grammar: &Grammar, pairing: &[u8]) -> Line {
    if pairing.is_empty() {
        return any_line(prng, grammar);
    }
    let named = Named {
        pairs: grammar.pairs.len(),
    };
    let mut bounded = vec![BOUNDARY_PAIR];
    bounded.extend(pairing.iter().map(|&pair| u16::from(pair)));
    bounded.push(BOUNDARY_PAIR);
    let mut place = prng.between(1, pairing.len());
    if alike(grammar, pairing[place - 1]).is_empty() {
        // A pair alone with its lexical letter can't break <=.
        place = prng.between(1, pairing.len());
    }
    let here = pairing[place - 1];
    let (operator, _) = prng.one_of(&Operator::WRITTEN);
    // At its own place a pair breaks /<=.
    let weights = if operator == "/<=" {
        [10, 15, 70, 5]
    } else {
        [40, 40, 15, 5]
    };
    let own = match prng.weighted(&weights) {
        0 => here,
        1 => one_alike(prng, grammar, here),
        2 => prng.one_of(pairing),
        _ => prng.below(grammar.pairs.len()) as u8,
    };
    let before = run_length(prng, place);
    let after = run_length(prng, bounded.len() - place - 1);
    let left = side(prng, &named, &bounded[place - before..place], true);
    let right = side(prng, &named, &bounded[place + 1..place + 1 + after], false);
    Line {
        operator,
        own: digits(u16::from(own)),
        left,
        right,
    }
}

/// How many of so many pairs a context is drawn around: few, or all.
fn run_length(prng: &mut Prng, most: usize) -> usize {
    match prng.weighted(&[25, 50, 15, 10]) {
        0 => 0,
        1 => prng.between(1, 3).min(most),
        2 => most,
        _ => prng.below(most + 1),
    }
}

/// A context on one side of a place, at times at a limit.
fn side(prng: &mut Prng, named: &Named, run: &[u16], is_left: bool) -> ContextText {
    if run.is_empty() && prng.percent(70) {
        return ContextText::empty();
    }
    let drawn = named.around(prng, run);
    match prng.weighted(&[90, 5, 5]) {
        0 => drawn,
        1 => drawn.stretched(MOST_BYTES, is_left),
        _ => drawn.deepened(MOST_DEPTH),
    }
}

pub(crate) fn texts(lines: &[Line]) -> Vec<Vec<u8>> {
    lines.iter().map(Line::text).collect()
}

/// Lines with their ends, the last at will.
pub(crate) fn joined(lines: &[Vec<u8>], last_ends: bool) -> Vec<u8> {
    let mut text = lines.join(&b'\n');
    if last_ends && !lines.is_empty() {
        text.push(b'\n');
    }
    text
}

/// One byte changed, dropped or added, often one that rules are written with.
fn change(prng: &mut Prng, text: &mut Vec<u8>) {
    let any = prng.below(256) as u8;
    let byte = prng.one_of(b"0123456789.*|()_ <=>/\n");
    let byte = if prng.percent(90) { byte } else { any };
    let place = prng.below(text.len() + 1);
    match prng.below(3) {
        0 if place < text.len() => text[place] = byte,
        1 if place < text.len() => drop(text.remove(place)),
        _ => text.insert(place, byte),
    }
}
