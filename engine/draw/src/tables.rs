//! Rule tables are drawn so that nearly every one has a single narrowest column for each pair.

use crate::prng::Prng;
use crate::sets;
use other_engine::draft::DraftTable;
use other_engine::grammar::{columns_taken, matches, Set, ANY, BOUNDARY};

/// What the columns of a table are drawn from.
pub struct Stock<'a> {
    pub letters: usize,
    pub pairs: &'a [(u8, u8)],
    pub sets: &'a [Set],
}

/// How hard a drawn table is on pairings.
pub struct Temper {
    /// Next states that are failure, in a hundred.
    pub failing: usize,
    /// Final states, in a hundred.
    pub finals: usize,
    /// Next states that stay where they are, in a hundred.
    pub staying: usize,
}

/// Tempers for few and short pairs, for many, and for very many.
pub fn temper(prng: &mut Prng, rules: usize) -> Temper {
    let failing = match rules {
        0..=1 => prng.one_of(&[0, 10, 20, 35]),
        2..=3 => prng.one_of(&[0, 3, 10, 20]),
        _ => prng.one_of(&[0, 1, 4]),
    };
    let finals = if rules < 2 {
        prng.one_of(&[50, 75, 100])
    } else {
        prng.one_of(&[75, 90, 100])
    };
    Temper {
        failing,
        finals,
        staying: prng.one_of(&[0, 30, 60]),
    }
}

/// A table for these pairs and sets.
pub fn table(prng: &mut Prng, stock: &Stock, temper: &Temper) -> DraftTable {
    let wanted = match prng.weighted(&[70, 25, 5]) {
        0 => prng.between(1, 5),
        1 => prng.between(3, 10),
        _ => 16,
    };
    let columns = columns(prng, stock, wanted);
    let states = match prng.weighted(&[70, 25, 5]) {
        0 => prng.between(1, 4),
        1 => prng.between(2, 8),
        _ => 24,
    };
    with_columns(prng, stock, columns, states, temper)
}

/// A table with these columns and so many states. Of those that fail on the boundary before the first pair, and so leave no reading, most are mended.
pub fn with_columns(
    prng: &mut Prng,
    stock: &Stock,
    columns: Vec<(u8, u8)>,
    states: usize,
    temper: &Temper,
) -> DraftTable {
    let finals = (0..states)
        .map(|_| u8::from(prng.percent(temper.finals)))
        .collect();
    let mut rows: Vec<Vec<u8>> = (1..=states)
        .map(|state| {
            (0..columns.len())
                .map(|_| {
                    if prng.percent(temper.failing) {
                        0
                    } else if prng.percent(temper.staying) {
                        state as u8
                    } else {
                        prng.between(1, states) as u8
                    }
                })
                .collect()
        })
        .collect();
    let taken = columns_taken(stock.sets, &columns, stock.pairs);
    if let Some(column) = taken.and_then(|taken| taken.last().copied()) {
        if rows[0][column] == 0 && prng.percent(80) {
            rows[0][column] = prng.between(1, states) as u8;
        }
    }
    DraftTable {
        columns,
        finals,
        rows,
    }
}

fn side(prng: &mut Prng, stock: &Stock) -> u8 {
    if prng.percent(40) {
        if let Some(side) = sets::any_side(prng, stock.sets) {
            return side;
        }
    }
    match prng.weighted(&[30, 12, 8, 50]) {
        0 => ANY,
        1 => 0,
        2 => BOUNDARY,
        _ => prng.between(2, stock.letters) as u8,
    }
}

/// A side that matches a letter: any, a set that has it, or the letter itself.
fn side_for(prng: &mut Prng, stock: &Stock, letter: u8) -> u8 {
    if prng.percent(30) {
        return ANY;
    }
    let set = sets::side_with(prng, stock.sets, letter);
    set.filter(|_| prng.percent(50)).unwrap_or(letter)
}

fn column(prng: &mut Prng, stock: &Stock) -> (u8, u8) {
    if prng.percent(25) {
        return (side(prng, stock), side(prng, stock));
    }
    let (x, y) = if prng.percent(12) {
        (BOUNDARY, BOUNDARY)
    } else {
        prng.one_of(stock.pairs)
    };
    (side_for(prng, stock, x), side_for(prng, stock, y))
}

/// About so many columns, mended until each pair has its one narrowest.
pub fn columns(prng: &mut Prng, stock: &Stock, wanted: usize) -> Vec<(u8, u8)> {
    let mut columns: Vec<(u8, u8)> = (0..wanted).map(|_| column(prng, stock)).collect();
    while let Some(fault) = first_fault(&columns, stock) {
        match fault {
            Fault::Unmatched => {
                if columns.len() == 16 {
                    columns.swap_remove(prng.below(16));
                }
                columns.insert(prng.below(columns.len() + 1), (ANY, ANY));
            }
            Fault::Tied(one, other) => {
                columns.remove(if prng.percent(50) { one } else { other });
            }
        }
    }
    columns
}

enum Fault {
    Unmatched,
    Tied(usize, usize),
}

fn first_fault(columns: &[(u8, u8)], stock: &Stock) -> Option<Fault> {
    let matches = |column, pair| matches(stock.sets, column, pair);
    let fed: Vec<(u8, u8)> = stock
        .pairs
        .iter()
        .copied()
        .chain([(BOUNDARY, BOUNDARY)])
        .collect();
    let breadth: Vec<usize> = columns
        .iter()
        .map(|&column| fed.iter().filter(|&&pair| matches(column, pair)).count())
        .collect();
    for &pair in &fed {
        let mut order: Vec<usize> = (0..columns.len())
            .filter(|&c| matches(columns[c], pair))
            .collect();
        order.sort_by_key(|&c| breadth[c]);
        match order[..] {
            [] => return Some(Fault::Unmatched),
            [one, other, ..] if breadth[one] == breadth[other] => {
                return Some(Fault::Tied(one, other))
            }
            _ => {}
        }
    }
    None
}
