//! Replies are counted by what stands first in their text, so that a run shows what it has met.

use other_engine::Grammar;

/// The replies a line can get.
const REPLIES: [&str; 5] = ["all", "more", "none", "refused", "unread"];

/// The refusals a line can get, in the order of their tests.
const REFUSALS: [usize; 11] = [1, 2, 3, 4, 5, 6, 7, 8, 14, 9, 10];

/// What a grammar has that rows by it are counted for: a column that names a set, or an entry with more than one way on, which form 2 alone can have.
#[derive(Clone, Copy, Default)]
pub struct Sorts {
    names_sets: bool,
    has_several_ways: bool,
}

impl Sorts {
    /// What an accepted grammar has of these.
    pub fn of(grammar: &Grammar) -> Sorts {
        Sorts {
            names_sets: grammar.names_sets(),
            has_several_ways: grammar.entries.iter().any(|entry| entry.ways() > 1),
        }
    }
}

/// How often each reply, and each refusal by its number, was met, how often a first row with an entry that needs more than eleven bits, and how often rows by a grammar of each sort.
#[derive(Default)]
pub struct Tally {
    replies: [u64; 5],
    refusals: [u64; 15],
    late_entries: u64,
    by_sets: u64,
    by_several_ways: u64,
}

/// Whether the first row of an answer has an entry from 2,048 on.
fn has_late_entry(text: &str) -> bool {
    let row = text.lines().nth(1);
    let entries = row.and_then(|row| row.split_once(" | ")).map(|row| row.0);
    let mut numbers = entries.into_iter().flat_map(str::split_ascii_whitespace);
    numbers.any(|number| number.parse().is_ok_and(|entry: u16| entry >= 2_048))
}

impl Tally {
    /// Counts the reply that a text begins with, by a grammar of these sorts.
    pub fn count(&mut self, text: &str, sorts: Sorts) {
        let mut words = text.split_ascii_whitespace();
        let reply = words.next();
        let number = words.next().and_then(|number| number.parse().ok());
        if let Some(place) = REPLIES.iter().position(|&name| Some(name) == reply) {
            self.replies[place] += 1;
        }
        if let (Some("refused"), Some(k)) = (reply, number) {
            let k: usize = k;
            self.refusals[k] += 1;
        }
        self.late_entries += u64::from(has_late_entry(text));
        let rows = matches!(reply, Some("all" | "more"));
        self.by_sets += u64::from(rows && sorts.names_sets);
        self.by_several_ways += u64::from(rows && sorts.has_several_ways);
    }

    /// All replies together.
    pub fn lines(&self) -> u64 {
        self.replies.iter().sum()
    }

    /// What has been met, to go on one line.
    pub fn line(&self) -> String {
        let counted = |(name, count): (&&str, &u64)| format!("{name} {count}");
        let replies: Vec<String> = REPLIES.iter().zip(&self.replies).map(counted).collect();
        let refusals = REFUSALS.map(|k| format!("{k}:{}", self.refusals[k]));
        format!(
            "{}; refused {}; entry 2048 in row 0: {}; rows by a set column's grammar: {}; by one with several ways on: {}",
            replies.join(" "),
            refusals.join(" "),
            self.late_entries,
            self.by_sets,
            self.by_several_ways
        )
    }

    /// What should have been met and has not.
    pub fn missing(&self) -> Vec<String> {
        let replies = REPLIES.iter().zip(self.replies).filter(|(_, n)| *n == 0);
        let refusals = REFUSALS.iter().filter(|&&k| self.refusals[k] == 0);
        let late = (self.late_entries == 0).then_some("entry 2048 in row 0");
        let sets = (self.by_sets == 0).then_some("rows by a set column's grammar");
        let ways = (self.by_several_ways == 0).then_some("rows by a grammar with several ways on");
        replies
            .map(|(name, _)| name.to_string())
            .chain(refusals.map(|k| format!("refused {k}")))
            .chain(late.into_iter().chain(sets).chain(ways).map(str::to_string))
            .collect()
    }
}

#[cfg(test)]
mod tests {
    use super::has_late_entry;

    #[test]
    fn late_entries_are_seen_in_the_first_row_alone() {
        assert!(has_late_entry("all 1\n0 2048 | 3 5\n"));
        assert!(!has_late_entry("all 1\n0 2047 | 3 5\n"));
        assert!(!has_late_entry("all 2\n0 | 1\n2048 | 1\n"));
        assert!(!has_late_entry("none 0\n"));
    }
}
