//! An image is turned down by the first test it fails, each run over the whole image before the next.

use crate::entries::{entries_in_block, entry, entry_fits, entry_form, entry_width};
use crate::grammar::{columns_taken, set_named, Grammar, Set, Table, ANY, NULL};

/// The length of a block.
pub const BLOCK: usize = 512;

/// The check of a block, from its bytes 0 to 509.
pub fn block_check(block: &[u8]) -> u16 {
    let weighted = block[..510].iter().zip(1..);
    let sum: u32 = weighted
        .map(|(&byte, weight)| weight * u32::from(byte))
        .sum();
    ((1 + sum) % 65_521) as u16
}

/// Writes number and check into every block, or replies refusal 1.
pub fn seal(image: &mut [u8]) -> Result<(), u8> {
    if !length_fits(image) {
        return Err(1);
    }
    for (number, block) in image.chunks_exact_mut(BLOCK).enumerate() {
        block[0..2].copy_from_slice(&(number as u16).to_le_bytes());
        let check = block_check(block);
        block[510..512].copy_from_slice(&check.to_le_bytes());
    }
    Ok(())
}

/// Whether an image passes a test, all earlier ones passed.
type Test = fn(&[u8]) -> bool;

/// The tests of an image in the order they are made, each with its number.
const TESTS: [(u8, Test); 9] = [
    (1, length_fits),
    (2, numbers_and_checks_fit),
    (3, plan_fits),
    (4, code_points_fit),
    (5, pairs_fit),
    (6, sets_and_tables_fit),
    (7, columns_fit),
    (8, lexicon_fits),
    (14, forms_fit),
];

/// Reads a grammar, or replies the number of the first failed test.
pub fn read(image: &[u8]) -> Result<Grammar, u8> {
    match TESTS.iter().find(|(_, fits)| !fits(image)) {
        Some(&(number, _)) => Err(number),
        None => Ok(decode(image)),
    }
}

fn two(bytes: &[u8], at: usize) -> usize {
    usize::from(u16::from_le_bytes([bytes[at], bytes[at + 1]]))
}

fn block(image: &[u8], number: usize) -> &[u8] {
    &image[number * BLOCK..(number + 1) * BLOCK]
}

/// The seven numbers of block 0's one record.
pub(crate) struct Counts {
    pub(crate) form: usize,
    pub(crate) letters: usize,
    pairs: usize,
    rules: usize,
    pub(crate) lexicons: usize,
    entries: usize,
    sets: usize,
}

impl Counts {
    /// The block of the first rule, or of the lexicon counts where there is no rule.
    fn first_rule(&self) -> usize {
        if self.sets == 0 {
            3
        } else {
            4
        }
    }
}

fn counts(image: &[u8]) -> Counts {
    Counts {
        form: two(image, 4),
        letters: two(image, 6),
        pairs: two(image, 8),
        rules: two(image, 10),
        lexicons: two(image, 12),
        entries: two(image, 14),
        sets: two(image, 16),
    }
}

/// What one block must be: its kind, its record count, its record width.
struct Plan {
    kind: u8,
    records: usize,
    width: usize,
}

fn plan(c: &Counts) -> Vec<Plan> {
    let mut all = vec![
        Plan {
            kind: 1,
            records: 1,
            width: 14,
        },
        Plan {
            kind: 2,
            records: c.letters,
            width: 2,
        },
        Plan {
            kind: 3,
            records: c.pairs,
            width: 2,
        },
    ];
    if c.sets > 0 {
        all.push(Plan {
            kind: 7,
            records: c.sets,
            width: 16,
        });
    }
    all.extend((0..c.rules).map(|_| Plan {
        kind: 4,
        records: 1,
        width: 506,
    }));
    all.push(Plan {
        kind: 5,
        records: c.lexicons,
        width: 2,
    });
    let mut rest = c.entries;
    while rest > 0 {
        let records = rest.min(entries_in_block(c.form));
        all.push(Plan {
            kind: 6,
            records,
            width: entry_width(c.form),
        });
        rest -= records;
    }
    all
}

fn length_fits(image: &[u8]) -> bool {
    !image.is_empty() && image.len() <= 65_536 && image.len().is_multiple_of(BLOCK)
}

fn numbers_and_checks_fit(image: &[u8]) -> bool {
    image
        .chunks_exact(BLOCK)
        .enumerate()
        .all(|(number, block)| {
            two(block, 0) == number && two(block, 510) == usize::from(block_check(block))
        })
}

fn plan_fits(image: &[u8]) -> bool {
    let c = counts(image);
    if !(1..=2).contains(&c.form)
        || !(2..=120).contains(&c.letters)
        || !(1..=250).contains(&c.pairs)
        || c.rules > 32
        || !(1..=64).contains(&c.lexicons)
        || !(1..=2_800).contains(&c.entries)
        || c.sets > 31
    {
        return false;
    }
    let plan = plan(&c);
    plan.len() * BLOCK == image.len()
        && image.chunks_exact(BLOCK).zip(&plan).all(|(block, plan)| {
            block[2] == plan.kind
                && usize::from(block[3]) == plan.records
                && block[4 + plan.records * plan.width..510]
                    .iter()
                    .all(|&b| b == 0)
        })
}

fn code_points(image: &[u8]) -> Vec<u16> {
    (0..counts(image).letters)
        .map(|i| two(block(image, 1), 4 + 2 * i) as u16)
        .collect()
}

fn code_points_fit(image: &[u8]) -> bool {
    let points = code_points(image);
    points.iter().enumerate().all(|(i, &point)| {
        point != 0 && !(55_296..=57_343).contains(&point) && !points[..i].contains(&point)
    })
}

fn pairs(image: &[u8]) -> Vec<(u8, u8)> {
    let block = block(image, 2);
    (0..counts(image).pairs)
        .map(|i| (block[4 + 2 * i], block[5 + 2 * i]))
        .collect()
}

fn pairs_fit(image: &[u8]) -> bool {
    let last = counts(image).letters;
    let side_fits = |side: u8| side == NULL || (2..=last).contains(&usize::from(side));
    let pairs = pairs(image);
    pairs.iter().enumerate().all(|(i, &pair)| {
        side_fits(pair.0)
            && side_fits(pair.1)
            && pair != (NULL, NULL)
            && !pairs[..i].contains(&pair)
    })
}

/// The numbers that bits name: 8j + b where byte j has bit b.
pub(crate) fn named(bits: &[u8]) -> Vec<u8> {
    let numbers = 0..8 * bits.len();
    numbers
        .filter(|number| bits[number / 8] >> (number % 8) & 1 == 1)
        .map(|number| number as u8)
        .collect()
}

fn sets(image: &[u8]) -> Vec<Set> {
    (0..counts(image).sets)
        .map(|number| named(&block(image, 3)[4 + 16 * number..][..16]))
        .collect()
}

fn sets_fit(image: &[u8]) -> bool {
    let last = counts(image).letters;
    let mut members = sets(image).into_iter().flatten();
    members.all(|letter| usize::from(letter) <= last)
}

/// The record of one rule: 506 bytes.
fn table_record<'a>(image: &'a [u8], c: &Counts, rule: usize) -> &'a [u8] {
    &block(image, c.first_rule() + rule)[4..510]
}

fn sets_and_tables_fit(image: &[u8]) -> bool {
    let c = counts(image);
    sets_fit(image) && (0..c.rules).all(|rule| table_fits(table_record(image, &c, rule), &c))
}

fn side_fits(side: u8, c: &Counts) -> bool {
    match set_named(side) {
        Some(number) => number < c.sets,
        None => side == ANY || usize::from(side) <= c.letters,
    }
}

fn table_fits(record: &[u8], c: &Counts) -> bool {
    let columns = usize::from(record[0]);
    let states = usize::from(record[1]);
    if !(1..=16).contains(&columns) || !(1..=24).contains(&states) {
        return false;
    }
    let marks_at = 2 + 2 * columns;
    let rows_at = marks_at + states;
    let rest_at = rows_at + states * columns;
    record[2..marks_at].iter().all(|&side| side_fits(side, c))
        && record[marks_at..rows_at].iter().all(|&mark| mark <= 1)
        && record[rows_at..rest_at]
            .iter()
            .all(|&next| usize::from(next) <= states)
        && record[rest_at..].iter().all(|&b| b == 0)
}

fn table_columns(record: &[u8]) -> Vec<(u8, u8)> {
    (0..usize::from(record[0]))
        .map(|c| (record[2 + 2 * c], record[3 + 2 * c]))
        .collect()
}

fn columns_fit(image: &[u8]) -> bool {
    let c = counts(image);
    let (sets, pairs) = (sets(image), pairs(image));
    (0..c.rules).all(|rule| {
        let columns = table_columns(table_record(image, &c, rule));
        columns_taken(&sets, &columns, &pairs).is_some()
    })
}

fn lexicon_counts(image: &[u8]) -> Vec<usize> {
    let c = counts(image);
    let block = block(image, c.first_rule() + c.rules);
    (0..c.lexicons).map(|i| two(block, 4 + 2 * i)).collect()
}

/// The record of one entry, as wide as the image's form has it.
fn entry_record<'a>(image: &'a [u8], c: &Counts, entry: usize) -> &'a [u8] {
    let (width, in_block) = (entry_width(c.form), entries_in_block(c.form));
    let number = c.first_rule() + c.rules + 1 + entry / in_block;
    &block(image, number)[4 + width * (entry % in_block)..][..width]
}

fn lexicon_fits(image: &[u8]) -> bool {
    let c = counts(image);
    lexicon_counts(image).iter().sum::<usize>() == c.entries
        && (0..c.entries).all(|entry| entry_fits(entry_record(image, &c, entry), &c))
}

/// Whether each letter of each form is the lexical side of some pair.
fn forms_fit(image: &[u8]) -> bool {
    let c = counts(image);
    let lexical: Vec<u8> = pairs(image).iter().map(|pair| pair.0).collect();
    (0..c.entries).all(|entry| {
        entry_form(entry_record(image, &c, entry))
            .iter()
            .all(|letter| lexical.contains(letter))
    })
}

fn decode(image: &[u8]) -> Grammar {
    let c = counts(image);
    let (sets, pairs) = (sets(image), pairs(image));
    let tables = (0..c.rules)
        .map(|rule| {
            let record = table_record(image, &c, rule);
            let columns = table_columns(record);
            let states = usize::from(record[1]);
            let marks_at = 2 + 2 * columns.len();
            let rows_at = marks_at + states;
            Table {
                finals: record[marks_at..rows_at].to_vec(),
                rows: record[rows_at..rows_at + states * columns.len()]
                    .chunks(columns.len())
                    .map(<[u8]>::to_vec)
                    .collect(),
                takes: columns_taken(&sets, &columns, &pairs).expect("test 7 has passed"),
                columns,
            }
        })
        .collect();
    let mut starts = vec![0];
    for count in lexicon_counts(image) {
        starts.push(starts[starts.len() - 1] + count);
    }
    let entries = (0..c.entries)
        .map(|number| entry(entry_record(image, &c, number), c.form))
        .collect();
    let letters = code_points(image);
    Grammar::new(c.form, letters, pairs, sets, tables, starts, entries)
}
