//! How far a long list is, in a line on the terminal that is written again and again.

use crate::failure::tell;
use std::io::{self, IsTerminal};
use std::time::{Duration, Instant};

/// A list that takes less is not long.
const FIRST: Duration = Duration::from_secs(1);
const EVERY: Duration = Duration::from_millis(200);

pub struct Progress {
    wanted: bool,
    /// Bytes of the whole list, where that is known.
    size: Option<u64>,
    begun: Instant,
    shown: Option<Instant>,
}

impl Progress {
    /// Where the readings go to the terminal too, they show by themselves how far the list is.
    pub fn new(wanted: bool, size: Option<u64>) -> Progress {
        let wanted = wanted && io::stderr().is_terminal() && !io::stdout().is_terminal();
        Progress { wanted, size, begun: Instant::now(), shown: None }
    }

    pub fn took(&self) -> Duration {
        self.begun.elapsed()
    }

    pub fn show(&mut self, words: u64, bytes: u64) {
        let now = Instant::now();
        let due = self.shown.map_or(self.begun + FIRST, |shown| shown + EVERY);
        if !self.wanted || now < due {
            return;
        }
        self.shown = Some(now);
        let percent = self.size.filter(|&size| size > 0).map(|size| 100 * bytes.min(size) / size);
        let percent = percent.map_or(String::new(), |percent| format!(", {percent} %"));
        tell(&format!("\r{words} words{percent}\x1b[K"));
    }

    /// Makes room for other lines.
    pub fn clear(&mut self) {
        if self.shown.is_some() {
            tell("\r\x1b[K");
        }
    }
}
