//! Listings reach a limit, need a number of bits that might be lost, or go by a set or by the ways of form 2, as their rows show.

use crate::met::met;
use other_engine::grammar::{set_named, Grammar, BOUNDARY, NULL};
use other_engine::Reading;

/// What the rows of a listing can reach.
pub const LIMITS: [&str; 19] = [
    "16 entries",
    "40 pairs",
    "32 letters",
    "8 lexical nulls",
    "8 surface nulls",
    "pair 249",
    "the largest image",
    "the null in a set",
    "the boundary in a set",
    "set 30",
    "rows that an ending puts in order",
    "the largest image of form 2",
    "a set column",
    "entry 2048 in row 0",
    "65536 rows",
    "form 2",
    "an inner entry that may stop",
    "an entry of several lexicons",
    "lexicon 63 by its bit",
];
/// The first of the limits that analysis and generation should each have reached.
pub const OF_EACH: usize = 12;

/// The sets named by the columns that the pairs of a row and the boundary pair take, each with the letter that it was found to have.
fn sets_asked(grammar: &Grammar, row: &Reading) -> Vec<(usize, u8)> {
    let boundary = grammar.pairs.len();
    let pairs = row.pairing.iter().map(|&pair| usize::from(pair));
    let mut asked = Vec::new();
    for pair in pairs.chain([boundary]) {
        let sides = grammar.pairs.get(pair).copied();
        let (lexical, surface) = sides.unwrap_or((BOUNDARY, BOUNDARY));
        for table in &grammar.tables {
            let column = table.columns[table.takes[pair]];
            asked.extend(set_named(column.0).map(|set| (set, lexical)));
            asked.extend(set_named(column.1).map(|set| (set, surface)));
        }
    }
    asked
}

/// The limits that rows of a listing reach, the first fifty of them at most; of all rows the count alone is asked.
pub fn limits(grammar: &Grammar, rows: &[Reading]) -> Vec<&'static str> {
    let few = &rows[..rows.len().min(50)];
    let mut all: Vec<&'static str> = few.iter().flat_map(|row| of_row(grammar, row)).collect();
    let first_entries = rows.first().into_iter().flat_map(|row| &row.path);
    let counts = [
        grammar.letters.len(),
        grammar.pairs.len(),
        grammar.tables.len(),
        grammar.starts.len() - 1,
        grammar.entries.len(),
        grammar.sets.len(),
    ];
    let form = grammar.image_form;
    let plain = |row: &Reading| grammar.steps_by(row, false);
    let mut next_to = few.windows(2);
    all.extend(met(&[
        (
            "the largest image",
            !rows.is_empty() && form == 1 && counts == [120, 250, 32, 64, 2_800, 31],
        ),
        (
            "the largest image of form 2",
            !rows.is_empty() && form == 2 && counts == [120, 250, 32, 64, 1_911, 31],
        ),
        (
            "entry 2048 in row 0",
            first_entries.into_iter().any(|&entry| entry >= 2_048),
        ),
        ("65536 rows", rows.len() >= 65_536),
        (
            "rows that an ending puts in order",
            form == 2 && next_to.any(|two| plain(&two[0]) > plain(&two[1])),
        ),
    ]));
    all
}

fn of_row(grammar: &Grammar, row: &Reading) -> Vec<&'static str> {
    let sides = || row.pairing.iter().map(|&p| grammar.pairs[usize::from(p)]);
    let pairs = row.pairing.len();
    let surface_nulls = sides().filter(|s| s.1 == NULL).count();
    let asked = sets_asked(grammar, row);
    let is_asked = |is: &dyn Fn(usize, u8) -> bool| asked.iter().any(|&(set, x)| is(set, x));
    let form_2 = grammar.image_form == 2;
    let (_, inner) = row.path.split_last().expect("a path has an entry");
    let inner = || {
        inner
            .iter()
            .map(|&entry| &grammar.entries[usize::from(entry)])
    };
    let last = grammar.starts.get(63).copied().unwrap_or(usize::MAX);
    met(&[
        ("16 entries", row.path.len() == 16),
        ("40 pairs", pairs == 40),
        ("32 letters", pairs - surface_nulls == 32),
        (
            "8 lexical nulls",
            sides().filter(|s| s.0 == NULL).count() == 8,
        ),
        ("8 surface nulls", surface_nulls == 8),
        ("pair 249", row.pairing.contains(&249)),
        ("the null in a set", is_asked(&|_, letter| letter == NULL)),
        (
            "the boundary in a set",
            is_asked(&|_, letter| letter == BOUNDARY),
        ),
        ("set 30", is_asked(&|set, _| set == 30)),
        ("a set column", !asked.is_empty()),
        ("form 2", form_2),
        (
            "an inner entry that may stop",
            inner().any(|entry| entry.ends),
        ),
        (
            "an entry of several lexicons",
            inner().any(|entry| entry.lexicons.len() > 1),
        ),
        (
            "lexicon 63 by its bit",
            form_2 && row.path.iter().any(|&entry| usize::from(entry) >= last),
        ),
    ])
}
