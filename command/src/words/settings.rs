//! How a list is to be worked through, as options say.

use crate::arguments::{Choice, Given};
use crate::failure::Failure;
use std::thread::available_parallelism;

pub const FILE: Choice =
    Choice { name: "--file", value: Some("FILE"), what: "words from a file, a line each; - is standard input" };
pub const JOBS: Choice =
    Choice { name: "--jobs", value: Some("N"), what: "how many words to read at once; else one for each processor" };
pub const MOST: Choice = Choice { name: "--most", value: Some("N"), what: "the most readings of a word; else 64" };
pub const QUIET: Choice =
    Choice { name: "--quiet", value: None, what: "no summary, no progress, no reasons of words that are unread" };
pub const Q: Choice = Choice { name: "-q", value: None, what: "the same" };
pub const SUMMARY: Choice =
    Choice { name: "--summary", value: None, what: "a summary of short lists too, of ten words or fewer" };

/// The readings of a word that are wanted where nobody says otherwise.
const MOST_READINGS: usize = 64;
/// No machine has as many processors, and more threads might not be had.
const MOST_JOBS: usize = 1024;

pub struct Settings {
    pub jobs: usize,
    /// Readings wanted of a word.
    pub most: usize,
    /// Nothing but failures is told on standard error.
    pub quiet: bool,
    pub summary: Summary,
}

/// Which lists end with a summary.
#[derive(Clone, Copy, Debug, PartialEq, Eq)]
pub enum Summary {
    Every,
    Long,
    Never,
}

impl Settings {
    pub fn of(given: &Given) -> Result<Settings, Failure> {
        let jobs = given.number(JOBS.name)?;
        Ok(Settings {
            jobs: jobs.unwrap_or_else(|| available_parallelism().map_or(1, usize::from)).min(MOST_JOBS),
            most: given.number(MOST.name)?.unwrap_or(MOST_READINGS),
            quiet: given.has(QUIET.name) || given.has(Q.name),
            summary: if given.has(SUMMARY.name) { Summary::Every } else { Summary::Long },
        })
    }
}
