//! What became of the words of a list, in numbers.

use super::answers::{Answer, Outcome};
use crate::library::Reply;
use std::time::Duration;

#[derive(Clone, Debug, Default, PartialEq, Eq)]
pub struct Tally {
    pub words: u64,
    pub read: u64,
    pub none: u64,
    pub unread: u64,
    pub refused: u64,
    pub more: u64,
    pub folded: u64,
    pub composed: u64,
    /// Byte order marks that were dropped.
    pub marks: u64,
}

impl Tally {
    pub fn count(&mut self, answer: &Answer) {
        self.words += 1;
        self.folded += u64::from(answer.done.folded);
        self.composed += u64::from(answer.done.composed);
        *match answer.outcome {
            Outcome::Unread(_) => &mut self.unread,
            Outcome::Answered(Reply::All(_)) => &mut self.read,
            Outcome::Answered(Reply::More(_)) => &mut self.more,
            Outcome::Answered(Reply::None) => &mut self.none,
            Outcome::Answered(Reply::Refused(_)) => &mut self.refused,
        } += 1;
    }

    pub fn add(&mut self, other: &Tally) {
        self.words += other.words;
        self.read += other.read;
        self.none += other.none;
        self.unread += other.unread;
        self.refused += other.refused;
        self.more += other.more;
        self.folded += other.folded;
        self.composed += other.composed;
        self.marks += other.marks;
    }

    /// The words by what became of them.
    pub fn outcomes(&self) -> String {
        let Tally { words, read, none, unread, refused, more, .. } = self;
        format!("{words} words: {read} with a reading, {none} none, {unread} unread, {refused} refused, {more} more")
    }

    /// What was done to words before they were asked for; none where nothing was.
    pub fn handled(&self) -> Option<String> {
        let mut parts = Vec::new();
        if self.folded > 0 {
            parts.push(format!("capitals folded in {}", words(self.folded)));
        }
        if self.composed > 0 {
            parts.push(format!("accents joined with their letters in {}", words(self.composed)));
        }
        if self.marks > 0 {
            parts.push("byte order mark dropped".to_string());
        }
        (!parts.is_empty()).then(|| parts.join("; "))
    }

    /// The end of a list, for standard error.
    pub fn summary(&self, took: Duration) -> String {
        let seconds = took.as_secs_f64();
        let rate = (self.words as f64 / seconds.max(0.000_001)) as u64;
        let handled = self.handled().map_or(String::new(), |handled| format!("{handled}\n"));
        format!("{}\n{handled}{seconds:.2} s, {rate} words a second\n", self.outcomes())
    }
}

/// `1 word`, `2 words`
pub fn words(count: u64) -> String {
    format!("{count} word{}", if count == 1 { "" } else { "s" })
}
