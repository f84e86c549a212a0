//! The columns of a rule table, and which of them a pair takes.

use crate::text::alphabet::{Alphabet, ANY};
use crate::text::lines::one_character;
use crate::text::pairs::{Pair, BOUNDARY_PAIR};
use crate::text::sets::Sets;

/// What a column asks of a pair: a side may be the boundary, any, or name a set, too.
#[derive(Clone, Copy, Debug)]
pub struct Column {
    pub lexical: u8,
    pub surface: u8,
}

/// The letters and sets that sides of columns stand for.
#[derive(Clone, Copy)]
pub struct Sides<'a> {
    pub alphabet: &'a Alphabet,
    pub sets: &'a Sets,
}

impl Sides<'_> {
    /// The side that a character or the name of a set stands for.
    pub fn side(self, text: &str) -> Option<u8> {
        one_character(text).and_then(|character| self.alphabet.side(character)).or(self.sets.side(text))
    }

    pub fn show(self, side: u8) -> String {
        match self.sets.named_by(side) {
            Some(set) => set.name.clone(),
            None => self.alphabet.character(side).to_string(),
        }
    }

    pub fn show_column(self, column: Column) -> String {
        format!("{}:{}", self.show(column.lexical), self.show(column.surface))
    }

    fn side_matches(self, asked: u8, side: u8) -> bool {
        match self.sets.named_by(asked) {
            Some(set) => set.letters.contains(&side),
            None => asked == ANY || asked == side,
        }
    }

    pub fn matches(self, column: Column, pair: Pair) -> bool {
        self.side_matches(column.lexical, pair.lexical) && self.side_matches(column.surface, pair.surface)
    }
}

/// The column that each pair takes and, last, the boundary pair: of the matching columns the narrowest,
/// the one that matches fewest of all pairs and the boundary pair, however many letters its sets have. Or
/// what is wrong where some pair has no such column, or two.
pub fn taken(columns: &[Column], pairs: &[Pair], sides: Sides) -> Result<Vec<usize>, String> {
    let fed: Vec<Pair> = pairs.iter().copied().chain([BOUNDARY_PAIR]).collect();
    let breadth = |column: Column| fed.iter().filter(|&&pair| sides.matches(column, pair)).count();
    let breadths: Vec<usize> = columns.iter().map(|&column| breadth(column)).collect();
    let takes = fed.iter().map(|&pair| match narrowest(columns, &breadths, pair, sides)[..] {
        [column] => Ok(column),
        ref others => Err(trouble(columns, others, pair, sides)),
    });
    takes.collect()
}

/// The places of the columns that match `pair` and are as narrow as any that does.
fn narrowest(columns: &[Column], breadths: &[usize], pair: Pair, sides: Sides) -> Vec<usize> {
    let matching = || (0..columns.len()).filter(|&at| sides.matches(columns[at], pair));
    let least = matching().map(|at| breadths[at]).min();
    matching().filter(|&at| Some(breadths[at]) == least).collect()
}

fn trouble(columns: &[Column], narrowest: &[usize], pair: Pair, sides: Sides) -> String {
    let pair = pair.show(sides.alphabet);
    if narrowest.is_empty() {
        return format!("no column matches the pair {pair}");
    }
    let shown: Vec<String> =
        narrowest.iter().map(|&at| format!("{} ({})", at + 1, sides.show_column(columns[at]))).collect();
    format!("for the pair {pair} columns {} are equally narrow", shown.join(" and "))
}
