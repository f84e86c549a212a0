//! Works through a list: each job makes a portion of a batch, and what is told of every list is told here.

use super::answers::{Answer, Outcome};
use super::jobs::{in_order, Event};
use super::pieces::{Piece, Pieces};
use super::progress::Progress;
use super::settings::{Settings, Summary};
use super::sources::{Source, SourceName};
use super::spelling::Reason;
use super::tally::{words, Tally};
use crate::failure::{failed, tell, Failure};
use std::time::{Duration, Instant};

/// Words that are unread and told of one by one.
const MOST_TOLD: u64 = 20;
/// A list that needs no summary has at most as many words.
const SHORT: u64 = 10;

/// What a job makes of a batch: what the command keeps of it, and what is told of every list.
#[derive(Default)]
pub struct Portion<T> {
    pub kept: T,
    tally: Tally,
    /// Words that are unread: source, line, reason.
    unread: Vec<(usize, usize, Reason)>,
    bytes: u64,
}

impl<T> Portion<T> {
    /// Before a batch: what the last one left behind goes, but not `kept`.
    fn begin(&mut self, pieces: &[Piece]) {
        let marks = pieces.iter().filter(|piece| piece.marked).count() as u64;
        self.tally = Tally { marks, ..Tally::default() };
        self.unread.clear();
        self.bytes = pieces.iter().map(|piece| piece.bytes.len() as u64).sum();
    }

    pub fn count(&mut self, answer: &Answer) {
        self.tally.count(answer);
        if let Outcome::Unread(reason) = answer.outcome {
            if self.tally.unread <= MOST_TOLD {
                self.unread.push((answer.source, answer.line, reason));
            }
        }
    }
}

/// Works through the sources. Each job has a worker, which makes a portion of a batch; `take` gets what they kept, in the
/// order of the input. The words that are unread, progress and the summary are told on standard error.
pub fn work_through<T, W>(
    sources: Vec<Source>,
    settings: &Settings,
    new_worker: impl Fn() -> W + Sync,
    mut take: impl FnMut(&mut T) -> Result<(), Failure>,
) -> Result<Tally, Failure>
where
    T: Default + Send,
    W: FnMut(&[Piece], &mut Portion<T>),
{
    let mut teller = Teller::new(&sources, settings);
    let new_worker = || {
        let mut worker = new_worker();
        move |pieces: &[Piece], portion: &mut Portion<T>| {
            portion.begin(pieces);
            worker(pieces, portion);
        }
    };
    let ended = in_order(Pieces::new(sources), settings.jobs, new_worker, |event| {
        match event {
            Event::Made(portion) => {
                take(&mut portion.kept)?;
                teller.add(portion);
            }
            Event::Failed(what) => {
                teller.progress.clear();
                return Err(failed(&what));
            }
            Event::Tick { at_work } => teller.wait(at_work),
        }
        teller.progress.show(teller.tally.words, teller.bytes);
        Ok(())
    });
    teller.progress.clear();
    ended?;
    teller.end();
    Ok(teller.tally)
}

/// How long an answer is waited for without a word.
const LONG: Duration = Duration::from_secs(10);

/// The time since the last answer in which jobs were at work.
#[derive(Default)]
struct Wait {
    since: Option<Instant>,
    told: bool,
}

impl Wait {
    /// Whether it has become long just now.
    fn is_long(&mut self, at_work: bool, now: Instant) -> bool {
        if !at_work {
            self.since = None;
            return false;
        }
        let is_long = now.duration_since(*self.since.get_or_insert(now)) >= LONG;
        let is_news = is_long && !self.told;
        self.told |= is_long;
        is_news
    }
}

/// What is told on standard error.
struct Teller<'a> {
    settings: &'a Settings,
    names: Vec<SourceName>,
    progress: Progress,
    wait: Wait,
    tally: Tally,
    bytes: u64,
}

impl<'a> Teller<'a> {
    fn new(sources: &[Source], settings: &'a Settings) -> Teller<'a> {
        let typed = sources.iter().any(|source| source.is_typed);
        Teller {
            settings,
            names: sources.iter().map(|source| source.name.clone()).collect(),
            progress: Progress::new(!settings.quiet && !typed, sources.iter().map(|source| source.size).sum()),
            wait: Wait::default(),
            tally: Tally::default(),
            bytes: 0,
        }
    }

    /// The library cannot be interrupted, and by some grammars does not end.
    fn wait(&mut self, at_work: bool) {
        if self.wait.is_long(at_work, Instant::now()) && !self.settings.quiet {
            self.progress.clear();
            let words = words(self.tally.words);
            tell(&format!(
                "headwords: after {words}, no answer of the library within {} seconds; it is waited for\n",
                LONG.as_secs()
            ));
        }
    }

    fn add<T>(&mut self, portion: &Portion<T>) {
        let room = if self.settings.quiet { 0 } else { MOST_TOLD.saturating_sub(self.tally.unread) };
        for &(source, line, reason) in portion.unread.iter().take(room as usize) {
            self.progress.clear();
            tell(&format!("{}: unread: {reason}\n", self.names[source].place(line)));
        }
        self.wait = Wait::default();
        self.tally.add(&portion.tally);
        self.bytes += portion.bytes;
    }

    fn end(&self) {
        let tally = &self.tally;
        if self.settings.quiet {
            return;
        }
        if tally.unread > MOST_TOLD {
            tell(&format!("{} more are unread\n", words(tally.unread - MOST_TOLD)));
        }
        let is_short = tally.words <= SHORT;
        match self.settings.summary {
            Summary::Never => {}
            // What was done to words is told of a single word too.
            Summary::Long if is_short => tally.handled().iter().for_each(|handled| tell(&format!("{handled}\n"))),
            Summary::Long | Summary::Every => tell(&tally.summary(self.progress.took())),
        }
    }
}

#[cfg(test)]
mod tests {
    use super::*;

    #[test]
    fn a_wait_is_long_once_and_only_where_there_is_work() {
        let begun = Instant::now();
        let after = |seconds| begun + Duration::from_secs(seconds);
        let mut wait = Wait::default();
        let told =
            [(0, true), (9, true), (10, true), (11, true), (30, true)].map(|(at, work)| wait.is_long(work, after(at)));
        assert_eq!(told, [false, false, true, false, false]);
        let mut wait = Wait::default();
        let told = [(0, false), (30, false), (31, true), (40, true), (41, true)]
            .map(|(at, work)| wait.is_long(work, after(at)));
        assert_eq!(told, [false, false, false, false, true]);
    }
}
