//! The ways that stop at one letter, put together where one sentence says why.

use super::search::{Dead, Step, Stop};
use super::tables::Tables;
use std::cmp::Reverse;

/// Ways that stop for one reason.
pub enum Group<'a> {
    /// Rules refuse a pair, or there would be too many entries or nulls.
    Barred { dead: Vec<&'a Dead> },
    /// Entries that do not fit what is left of the word, after the same pairs and the same entries but for empty ones; and
    /// the lexicons that they are from.
    Unfit { lexicons: Vec<usize>, dead: Vec<&'a Dead> },
}

impl<'a> Group<'a> {
    pub fn ways(&self) -> &[&'a Dead] {
        match self {
            Group::Barred { dead } | Group::Unfit { dead, .. } => dead,
        }
    }

    /// The rules that bar its ways.
    pub fn rules(&self) -> Vec<usize> {
        match &self.ways()[0].stop {
            Stop::Refused { by, .. } => by.iter().map(|refusal| refusal.rule).collect(),
            _ => Vec::new(),
        }
    }
}

/// Groups in the order of their first ways.
pub fn groups<'a>(dead: &'a [Dead], tables: &Tables) -> Vec<Group<'a>> {
    let mut groups: Vec<Group> = Vec::new();
    for way in dead {
        if is_unfit(way) {
            add_unfit(&mut groups, way, tables);
        } else {
            add_barred(&mut groups, way);
        }
    }
    for group in &mut groups {
        if let Group::Unfit { lexicons, dead } = group {
            lexicons.sort_unstable();
            // The entries that come furthest into their forms are the nearest.
            dead.sort_by_key(|way| (Reverse(way.place), last_entry(way).1));
        }
    }
    groups
}

fn is_unfit(dead: &Dead) -> bool {
    matches!(dead.stop, Stop::NoPair | Stop::LeftOver | Stop::WordEnds)
}

fn add_barred<'a>(groups: &mut Vec<Group<'a>>, way: &'a Dead) {
    for group in groups.iter_mut() {
        match group {
            Group::Barred { dead } if dead[0].stop == way.stop => {
                dead.push(way);
                return;
            }
            _ => {}
        }
    }
    groups.push(Group::Barred { dead: vec![way] });
}

fn add_unfit<'a>(groups: &mut Vec<Group<'a>>, way: &'a Dead, tables: &Tables) {
    let (before, entry) = last_entry(way);
    let lexicon = tables.entries[entry].1;
    for group in groups.iter_mut() {
        match group {
            Group::Unfit { lexicons, dead } if same_letters(last_entry(dead[0]).0, before, tables) => {
                if !lexicons.contains(&lexicon) {
                    lexicons.push(lexicon);
                }
                // The same entry may come to the same place by pairs with nulls in another order.
                if dead.iter().all(|other| last_entry(other).1 != entry) {
                    dead.push(way);
                }
                return;
            }
            _ => {}
        }
    }
    groups.push(Group::Unfit { lexicons: vec![lexicon], dead: vec![way] });
}

fn same_letters(one: &[Step], other: &[Step], tables: &Tables) -> bool {
    let has_letters = |step: &&Step| !matches!(step, Step::Opened(entry) if tables.entries[*entry].0.form.is_empty());
    one.iter().filter(has_letters).eq(other.iter().filter(has_letters))
}

/// The steps before the last entry was opened, and that entry.
pub fn last_entry(dead: &Dead) -> (&[Step], usize) {
    let opened = dead.steps.iter().enumerate().rev().find_map(|(at, step)| match step {
        Step::Opened(entry) => Some((at, *entry)),
        Step::Paired(_) => None,
    });
    // Every way begins with an entry.
    let (at, entry) = opened.unwrap_or_default();
    (&dead.steps[..at], entry)
}
