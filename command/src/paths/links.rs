//! Which entries may follow which.

use crate::text::ways::Ways;
use crate::text::Grammar;
use std::ops::Range;

/// Names of lexicons that a message has room for.
const MOST_NAMED: usize = 6;

pub struct Links<'a> {
    grammar: &'a Grammar,
    /// Each entry's lexicon, and what follows it.
    entries: Vec<(usize, Ways)>,
    /// The entries of each lexicon.
    lexicons: Vec<Range<usize>>,
}

impl<'a> Links<'a> {
    pub fn new(grammar: &'a Grammar) -> Links<'a> {
        let (mut entries, mut lexicons) = (Vec::new(), Vec::new());
        for (number, lexicon) in grammar.lexicons.iter().enumerate() {
            let first = entries.len();
            entries.extend(lexicon.entries.iter().map(|entry| (number, entry.ways)));
            lexicons.push(first..entries.len());
        }
        Links { grammar, entries, lexicons }
    }

    /// The ways on from an entry; at the front of a word, where there is none, the first lexicon.
    fn ways(&self, entry: Option<usize>) -> Ways {
        entry.map_or(Ways::to(0), |entry| self.entries[entry].1)
    }

    /// The entries that may follow one, or that words begin with, in the order of their numbers.
    pub fn after(&self, entry: Option<usize>) -> impl Iterator<Item = usize> + '_ {
        self.ways(entry).lexicons().flat_map(|lexicon| self.lexicons[lexicon].clone())
    }

    /// Whether an entry may follow another, or stand first.
    pub fn follows(&self, last: Option<usize>, entry: usize) -> bool {
        self.ways(last).goes_to(self.entries[entry].0)
    }

    /// Whether a word may end after an entry.
    pub fn may_end(&self, entry: usize) -> bool {
        self.entries[entry].1.end
    }

    /// The name of the lexicon that an entry stands in.
    pub fn lexicon(&self, entry: usize) -> &str {
        &self.grammar.lexicons[self.entries[entry].0].name
    }

    /// The lexicons that follow an entry, with a verb: `lexicon A follows`, `lexicons A, B follow`; none where the word ends.
    pub fn following(&self, entry: usize) -> Option<String> {
        let names: Vec<&str> =
            self.ways(Some(entry)).lexicons().map(|lexicon| self.grammar.lexicons[lexicon].name.as_str()).collect();
        let more = match names.len().saturating_sub(MOST_NAMED) {
            0 => String::new(),
            more => format!(" and {more} more"),
        };
        match names[..] {
            [] => None,
            [name] => Some(format!("lexicon {name} follows")),
            _ => Some(format!("lexicons {}{more} follow", names[..names.len().min(MOST_NAMED)].join(", "))),
        }
    }

    /// The lexicon that words begin in.
    pub fn first_lexicon(&self) -> &str {
        &self.grammar.lexicons[0].name
    }
}
