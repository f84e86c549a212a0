//! A context as a tree, read from signs and written with numbers as the library takes it.

use super::signs::{Cut, Sign};
use crate::text::columns::{Column, Sides};
use crate::text::pairs::{Pair, BOUNDARY_PAIR};
use crate::text::Grammar;

/// The number of the boundary pair in a context.
pub const BOUNDARY_NUMBER: usize = 255;
/// Bytes of a context, and brackets one in another.
pub const MOST_BYTES: usize = 64;
pub const MOST_DEPTH: usize = 8;

#[derive(Clone, Debug, PartialEq, Eq)]
pub enum Context {
    /// One of these pairs, as the text writes them together.
    Pairs(Vec<usize>, String),
    Any,
    Star(Box<Context>),
    Sequence(Vec<Context>),
    Either(Vec<Context>),
}

/// The pairs of a grammar, listed and the boundary, as written rules name them.
#[derive(Clone, Copy)]
pub struct Pairs<'a> {
    pub sides: Sides<'a>,
    pub listed: &'a [Pair],
}

impl<'a> Pairs<'a> {
    pub fn of(grammar: &'a Grammar) -> Pairs<'a> {
        Pairs { sides: Sides { alphabet: &grammar.alphabet, sets: &grammar.sets }, listed: &grammar.pairs }
    }

    /// The listed pairs that a column matches.
    pub fn matching(self, column: Column) -> impl Iterator<Item = usize> + 'a {
        (0..self.listed.len()).filter(move |&number| self.sides.matches(column, self.listed[number]))
    }

    pub fn matches_boundary(self, column: Column) -> bool {
        self.sides.matches(column, BOUNDARY_PAIR)
    }

    pub fn show(self, number: usize) -> String {
        self.listed.get(number).copied().unwrap_or(BOUNDARY_PAIR).show(self.sides.alphabet)
    }

    /// What is told of a pair that the grammar has not.
    pub fn no_pair(self, written: &str, column: Column) -> String {
        let alike = |pair: &Pair| pair.lexical == column.lexical || pair.surface == column.surface;
        let near: Vec<String> = (0..self.listed.len())
            .filter(|&number| alike(&self.listed[number]))
            .map(|number| self.show(number))
            .take(MOST_NAMED)
            .collect();
        let hint = if near.is_empty() { String::new() } else { format!("; there are {}", near.join(" ")) };
        format!("{written}: the grammar has no such pair{hint}")
    }
}

const OPEN_ALONE: &str = "a bracket ( without its partner";
const CLOSE_ALONE: &str = "a bracket ) without its partner";
/// Pairs that are named in a fault.
pub const MOST_NAMED: usize = 6;

/// Reads what stands on one side of the underscore; nothing holds everywhere.
pub fn read(cuts: &[Cut], pairs: Pairs) -> Result<Option<Context>, String> {
    if cuts.is_empty() {
        return Ok(None);
    }
    let mut reader = Reader { cuts, at: 0, depth: 0, pairs };
    let context = reader.either()?;
    match reader.peek() {
        None => Ok(Some(context)),
        Some(_) => Err(CLOSE_ALONE.to_string()),
    }
}

struct Reader<'a> {
    cuts: &'a [Cut<'a>],
    at: usize,
    depth: usize,
    pairs: Pairs<'a>,
}

impl Reader<'_> {
    fn peek(&self) -> Option<Sign> {
        self.cuts.get(self.at).map(|cut| cut.sign)
    }

    fn either(&mut self) -> Result<Context, String> {
        let mut sides = vec![self.sequence()?];
        while let Some(Sign::Bar) = self.peek() {
            self.at += 1;
            sides.push(self.sequence()?);
        }
        Ok(one_or(sides, Context::Either))
    }

    fn sequence(&mut self) -> Result<Context, String> {
        let mut parts = Vec::new();
        while !matches!(self.peek(), None | Some(Sign::Bar | Sign::Close)) {
            parts.push(self.starred()?);
        }
        if parts.is_empty() {
            return Err(self.nothing().to_string());
        }
        Ok(one_or(parts, Context::Sequence))
    }

    /// What is told where something should stand and nothing does.
    fn nothing(&self) -> &'static str {
        let before = self.at.checked_sub(1).map(|at| self.cuts[at].sign);
        match (before, self.peek()) {
            (Some(Sign::Bar), _) | (_, Some(Sign::Bar)) => "a side of a bar is empty",
            (Some(Sign::Open), Some(_)) => "brackets with nothing in them",
            (Some(Sign::Open), None) => OPEN_ALONE,
            _ => CLOSE_ALONE,
        }
    }

    fn starred(&mut self) -> Result<Context, String> {
        let part = self.part()?;
        let mut starred = false;
        while let Some(Sign::Star) = self.peek() {
            self.at += 1;
            starred = true;
        }
        Ok(if starred { Context::Star(Box::new(part)) } else { part })
    }

    fn part(&mut self) -> Result<Context, String> {
        let Cut { sign, text } = self.cuts[self.at];
        self.at += 1;
        match sign {
            Sign::Any => Ok(Context::Any),
            Sign::Pair(column) => self.pair(column, text),
            Sign::Open => self.bracket(),
            Sign::Star => Err("a star stands on nothing; it follows what may come none or more times".to_string()),
            _ => Err(format!("{text} cannot stand in a context")),
        }
    }

    fn pair(&self, column: Column, text: &str) -> Result<Context, String> {
        let mut numbers: Vec<usize> = self.pairs.matching(column).collect();
        if self.pairs.matches_boundary(column) {
            if numbers.len() == self.pairs.listed.len() {
                return Ok(Context::Any);
            }
            numbers.push(BOUNDARY_NUMBER);
        }
        if numbers.is_empty() {
            return Err(self.pairs.no_pair(text, column));
        }
        Ok(Context::Pairs(numbers, text.to_string()))
    }

    fn bracket(&mut self) -> Result<Context, String> {
        self.depth += 1;
        if self.depth > MOST_DEPTH {
            return Err(format!("brackets are over {MOST_DEPTH} deep"));
        }
        let context = self.either()?;
        self.depth -= 1;
        match self.peek() {
            Some(Sign::Close) => {
                self.at += 1;
                Ok(context)
            }
            _ => Err(OPEN_ALONE.to_string()),
        }
    }
}

fn one_or(mut parts: Vec<Context>, several: fn(Vec<Context>) -> Context) -> Context {
    match parts.len() {
        1 => parts.remove(0),
        _ => several(parts),
    }
}

/// Where a part stands, and so what needs brackets there.
#[derive(Clone, Copy, PartialEq, PartialOrd)]
enum Within {
    Bar,
    Sequence,
    Star,
}

impl Context {
    /// With numbers; or why there are too many.
    pub fn with_numbers(&self) -> Result<String, String> {
        let mut text = String::new();
        self.put(Within::Bar, &mut text);
        if text.len() > MOST_BYTES {
            let widest = self.widest().filter(|(numbers, _)| numbers.len() > 1);
            let hint = widest.map_or(String::new(), |(numbers, written)| {
                format!("; {written} stands for {} pairs, each of them a number", numbers.len())
            });
            return Err(format!("takes {} bytes with numbers, and {MOST_BYTES} are allowed{hint}", text.len()));
        }
        if depth(&text) > MOST_DEPTH {
            return Err(format!(
                "has brackets over {MOST_DEPTH} deep, counting those around pairs that stand for several"
            ));
        }
        Ok(text)
    }

    fn put(&self, within: Within, text: &mut String) {
        let in_brackets = match self {
            Context::Pairs(numbers, _) => numbers.len() > 1 && within > Within::Bar,
            Context::Either(_) => within > Within::Bar,
            Context::Sequence(_) => within > Within::Sequence,
            Context::Any | Context::Star(_) => false,
        };
        if in_brackets {
            text.push('(');
        }
        match self {
            Context::Any => text.push('.'),
            Context::Pairs(numbers, _) => {
                let numbers: Vec<String> = numbers.iter().map(|number| format!("{number:03}")).collect();
                *text += &numbers.join("|");
            }
            Context::Star(part) => {
                part.put(Within::Star, text);
                text.push('*');
            }
            Context::Sequence(parts) => parts.iter().for_each(|part| part.put(Within::Sequence, text)),
            Context::Either(sides) => {
                for (at, side) in sides.iter().enumerate() {
                    if at > 0 {
                        text.push('|');
                    }
                    side.put(Within::Bar, text);
                }
            }
        }
        if in_brackets {
            text.push(')');
        }
    }

    /// Each place that names pairs.
    pub fn named(&self) -> Vec<(&[usize], &str)> {
        match self {
            Context::Any => Vec::new(),
            Context::Pairs(numbers, written) => vec![(numbers, written)],
            Context::Star(part) => part.named(),
            Context::Sequence(parts) | Context::Either(parts) => parts.iter().flat_map(Context::named).collect(),
        }
    }

    fn widest(&self) -> Option<(&[usize], &str)> {
        self.named().into_iter().max_by_key(|(numbers, _)| numbers.len())
    }
}

fn depth(text: &str) -> usize {
    let mut depth = 0_usize;
    let depths = text.bytes().map(|byte| {
        depth += usize::from(byte == b'(');
        depth -= usize::from(byte == b')');
        depth
    });
    depths.max().unwrap_or(0)
}
