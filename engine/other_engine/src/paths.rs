//! Complete paths are listed length by length, and kept where their joined forms can spell a word when rules are left aside.

use crate::grammar::{Grammar, NULL};
use crate::pairings::{Budget, TooBig, Ways};
use std::collections::BTreeMap;

/// Complete paths, gathered by the forms they join to.
pub type ByForm = BTreeMap<Vec<u8>, Vec<Vec<u16>>>;

/// The beginning of a path that may go on, with how many ways its letters can be paired.
struct Beginning {
    path: Vec<u16>,
    joined: Vec<u8>,
    lexicons: Vec<u8>,
    ways: Ways,
}

impl Grammar {
    /// Test 12: every entry exists, the first is from lexicon 0, each next from one that its predecessor may go on to, and the path may stop at the last.
    pub fn linked(&self, path: &[u16]) -> bool {
        let is_of = |lexicons: &[u8], entry: usize| {
            let mut lexicons = lexicons.iter().map(|&lexicon| usize::from(lexicon));
            lexicons.any(|lexicon| self.lexicon(lexicon).contains(&entry))
        };
        let mut lexicons = &[0][..];
        let mut ends = false;
        for entry in path.iter().map(|&entry| usize::from(entry)) {
            if !is_of(lexicons, entry) {
                return false;
            }
            lexicons = &self.entries[entry].lexicons;
            ends = self.entries[entry].ends;
        }
        ends
    }

    /// All complete paths whose joined forms can be paired with the word, rules aside.
    pub fn paths_for(&self, word: &[u8], budget: &mut Budget) -> Result<ByForm, TooBig> {
        let mut complete = ByForm::new();
        let mut beginnings = vec![Beginning {
            path: Vec::new(),
            joined: Vec::new(),
            lexicons: vec![0],
            ways: Ways::none_paired(word.len()),
        }];
        for _ in 0..16 {
            let mut longer = Vec::new();
            for beginning in &beginnings {
                let lexicons = beginning.lexicons.iter();
                for number in lexicons.flat_map(|&lexicon| self.lexicon(usize::from(lexicon))) {
                    budget.take(beginning.ways.total())?;
                    let entry = &self.entries[number];
                    let mut ways = beginning.ways.clone();
                    for &letter in &entry.form {
                        ways = ways.with_letter(self, letter, word);
                        if ways.total() == 0 {
                            break;
                        }
                        budget.take(ways.total())?;
                    }
                    if ways.total() == 0 {
                        continue;
                    }
                    let mut path = beginning.path.clone();
                    path.push(number as u16);
                    let mut joined = beginning.joined.clone();
                    joined.extend(&entry.form);
                    if entry.ends {
                        let mut ended = ways.clone();
                        ended.insert(self, word);
                        budget.take(ended.total())?;
                        if ended.at_end() > 0 {
                            let paths = complete.entry(joined.clone()).or_default();
                            paths.push(path.clone());
                        }
                    }
                    if !entry.lexicons.is_empty() {
                        longer.push(Beginning {
                            path,
                            joined,
                            lexicons: entry.lexicons.clone(),
                            ways,
                        });
                    }
                }
            }
            beginnings = longer;
        }
        Ok(complete)
    }

    /// Whether a letter of the word can be an insertion.
    pub(crate) fn inserts(&self, surface: u8) -> bool {
        self.pair_number(NULL, surface).is_some()
    }
}
