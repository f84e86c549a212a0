//! A grammar is letters, pairs, sets, rule tables and lexicons as plain data, with the column each pair takes worked out beforehand.

/// The null letter, on either level.
pub const NULL: u8 = 0;
/// The word boundary, which pairs with itself only.
pub const BOUNDARY: u8 = 1;
/// The column side that names set 0; those after it name the sets after it.
pub const FIRST_SET: u8 = 128;
/// The column side that matches every letter, null and boundary included.
pub const ANY: u8 = 255;
/// The continuation that ends a path, in form 1 of an image.
pub const END: u8 = 255;

/// The letters of a set, the null and the boundary possibly among them.
pub type Set = Vec<u8>;

/// One rule: its columns, final marks and rows of next states, as they stand in the image.
pub struct Table {
    pub columns: Vec<(u8, u8)>,
    pub finals: Vec<u8>,
    pub rows: Vec<Vec<u8>>,
    /// The column taken by pair 0, 1, .. P-1 and, last, by the boundary pair.
    pub takes: Vec<usize>,
}

/// One entry: its form, whether a path may stop at it, the lexicons that it may go on to, and its gloss number.
pub struct Entry {
    pub form: Vec<u8>,
    pub ends: bool,
    pub lexicons: Vec<u8>,
    pub gloss: u16,
}

impl Entry {
    /// The ways on, an ending counted as one.
    pub fn ways(&self) -> usize {
        usize::from(self.ends) + self.lexicons.len()
    }
}

/// Everything an accepted image says.
pub struct Grammar {
    /// The form of the image that says it: 1 or 2.
    pub image_form: usize,
    pub letters: Vec<u16>,
    pub pairs: Vec<(u8, u8)>,
    pub sets: Vec<Set>,
    pub tables: Vec<Table>,
    /// The first entry of each lexicon, then the entry total.
    pub starts: Vec<usize>,
    pub entries: Vec<Entry>,
    /// The pair with given sides, by lexical side times the letters and the null, plus surface side.
    numbers: Vec<Option<u8>>,
}

/// The number of the set that a column side names, if it names one.
pub fn set_named(side: u8) -> Option<usize> {
    (FIRST_SET..ANY)
        .contains(&side)
        .then(|| usize::from(side - FIRST_SET))
}

/// Whether a side of a column names a set.
fn names_set(column: (u8, u8)) -> bool {
    set_named(column.0).is_some() || set_named(column.1).is_some()
}

fn side_matches(sets: &[Set], side: u8, letter: u8) -> bool {
    match set_named(side) {
        Some(number) => sets.get(number).is_some_and(|set| set.contains(&letter)),
        None => side == ANY || side == letter,
    }
}

/// Whether a column matches a pair.
pub fn matches(sets: &[Set], column: (u8, u8), pair: (u8, u8)) -> bool {
    side_matches(sets, column.0, pair.0) && side_matches(sets, column.1, pair.1)
}

/// The column each pair and, last, the boundary pair takes: of its matching columns the one that matches fewest of all these pairs. None where some pair has no matching column, or two that match fewest.
pub fn columns_taken(sets: &[Set], columns: &[(u8, u8)], pairs: &[(u8, u8)]) -> Option<Vec<usize>> {
    let mut fed = pairs.to_vec();
    fed.push((BOUNDARY, BOUNDARY));
    let breadth: Vec<usize> = columns
        .iter()
        .map(|&column| {
            let matched = fed.iter().filter(|&&pair| matches(sets, column, pair));
            matched.count()
        })
        .collect();
    fed.iter()
        .map(|&pair| {
            let matching: Vec<usize> = (0..columns.len())
                .filter(|&c| matches(sets, columns[c], pair))
                .collect();
            let fewest = matching.iter().map(|&c| breadth[c]).min()?;
            let mut narrowest = matching.iter().filter(|&&c| breadth[c] == fewest);
            let first = narrowest.next()?;
            match narrowest.next() {
                None => Some(*first),
                Some(_) => None,
            }
        })
        .collect()
}

impl Table {
    /// Whether the rule, fed a whole pairing with the boundary pair before and after it, never reaches 0 and ends in a final state.
    pub fn passes(&self, pairing: &[u8]) -> bool {
        let boundary = self.takes.len() - 1;
        let pairs = pairing.iter().map(|&p| usize::from(p));
        let fed = [boundary].into_iter().chain(pairs).chain([boundary]);
        let mut state = 1;
        for pair in fed {
            state = usize::from(self.rows[state - 1][self.takes[pair]]);
            if state == 0 {
                return false;
            }
        }
        self.finals[state - 1] == 1
    }
}

impl Grammar {
    /// A grammar from its parts, its pairs laid out by their sides.
    pub fn new(
        image_form: usize,
        letters: Vec<u16>,
        pairs: Vec<(u8, u8)>,
        sets: Vec<Set>,
        tables: Vec<Table>,
        starts: Vec<usize>,
        entries: Vec<Entry>,
    ) -> Grammar {
        let width = letters.len() + 1;
        let mut numbers = vec![None; width * width];
        for (number, &(lexical, surface)) in pairs.iter().enumerate() {
            numbers[usize::from(lexical) * width + usize::from(surface)] = Some(number as u8);
        }
        Grammar {
            image_form,
            letters,
            pairs,
            sets,
            tables,
            starts,
            entries,
            numbers,
        }
    }

    /// The letter with this code point, the boundary possibly, if there is one.
    pub fn letter(&self, point: u16) -> Option<u8> {
        let place = self.letters.iter().position(|&other| other == point)?;
        Some(place as u8 + 1)
    }

    /// Whether every rule passes a whole pairing.
    pub fn passes(&self, pairing: &[u8]) -> bool {
        self.tables.iter().all(|table| table.passes(pairing))
    }

    /// Whether a column of some rule names a set.
    pub fn names_sets(&self) -> bool {
        let mut columns = self.tables.iter().flat_map(|table| &table.columns);
        columns.any(|&column| names_set(column))
    }

    /// The number of the listed pair with these sides, if there is one.
    pub fn pair_number(&self, lexical: u8, surface: u8) -> Option<u8> {
        self.numbers[usize::from(lexical) * (self.letters.len() + 1) + usize::from(surface)]
    }

    /// The entry numbers of one lexicon.
    pub fn lexicon(&self, number: usize) -> std::ops::Range<usize> {
        self.starts[number]..self.starts[number + 1]
    }

    /// The joined forms of a path of existing entries.
    pub fn joined(&self, path: &[u16]) -> Vec<u8> {
        path.iter()
            .flat_map(|&e| self.entries[usize::from(e)].form.iter().copied())
            .collect()
    }
}
