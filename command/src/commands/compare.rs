//! `headwords compare`: which words gained, lost or changed readings.

use crate::arguments::{Choice, Given};
use crate::commands::read::put_out;
use crate::commands::Command;
use crate::failure::{failed, tell, Failure};
use crate::layout::Plain;
use crate::library::{Reply, ROW};
use crate::loaded::{load, Loaded};
use crate::readings::Names;
use crate::words::{self, words, work_through, Answer, Asker, Letters, Outcome, Piece, Portion, Settings, Summary};
use std::path::Path;

const NO_EMPTY: Choice =
    Choice { name: "--no-empty", value: None, what: "pass over entries with an empty form, in both grammars" };

pub const COMMAND: Command = Command {
    name: "compare",
    operands: "OLD NEW [WORDS]",
    count: 2..=3,
    what: "which words gained, lost or changed readings",
    options: &[NO_EMPTY, words::MOST, words::JOBS, words::QUIET, words::Q],
    more: "\
OLD and NEW are grammars, WORDS a file of words, a line each; - or nothing is standard input. Readings are compared by what they
say, headword, entries with glosses and pairing, and not by number or order; where one is an image without its names, that is
told, and glosses in words are not compared. A line is printed for each reading that one of them
has: gained, lost or changed, + for NEW and - for OLD, the word, its headword, the entries with their glosses, the pairing. A
word that had no reading has gained, one that has none any more has lost, another has changed.
With --no-empty a grammar that goes on by empty entries can be held beside one that names several continuations in their place:
headword, pairing and the entries with letters have to be the same.
The status is that of diff: 0 where no word did, 1 where one did, 2 where something cannot be read or written or is refused.
",
    run,
};

fn run(given: &Given) -> Result<(), Failure> {
    let settings = Settings { summary: Summary::Never, ..Settings::of(given)? };
    let compared = compare(given, &settings).map_err(|failure| match failure {
        Failure::Told => Failure::Missing,
        other => other,
    })?;
    if !settings.quiet {
        tell(&compared.summary(settings.most));
    }
    if compared.is_same() {
        Ok(())
    } else {
        Err(Failure::Told)
    }
}

#[derive(Default)]
struct Compared {
    words: u64,
    gained: u64,
    lost: u64,
    changed: u64,
    /// Words with more readings than were compared.
    more: u64,
}

impl Compared {
    fn add(&mut self, other: &Compared) {
        self.words += other.words;
        self.gained += other.gained;
        self.lost += other.lost;
        self.changed += other.changed;
        self.more += other.more;
    }

    fn is_same(&self) -> bool {
        self.gained + self.lost + self.changed == 0
    }

    fn summary(&self, most: usize) -> String {
        let Compared { gained, lost, changed, .. } = self;
        let same = self.words - gained - lost - changed;
        let more = match self.more {
            0 => String::new(),
            count => format!("{} with over {most} readings, of which the first were compared\n", words(count)),
        };
        format!("{}: {gained} gained, {lost} lost, {changed} changed, {same} as before\n{more}", words(self.words))
    }
}

fn compare(given: &Given, settings: &Settings) -> Result<Compared, Failure> {
    let (mut old, mut new) = (load(Path::new(&given.operands[0]))?, load(Path::new(&given.operands[1]))?);
    compare_alike(&mut old, &mut new);
    let file = given.operands.get(2).map(|file| file.as_os_str());
    let sources = words::open(&[], file.as_slice())?;
    let letters = [&old, &new].map(|side| Letters::new(&side.image, &side.grammar));
    let [old_letters, new_letters] = &letters;
    let layouts = [&old, &new].map(|side| match given.has(NO_EMPTY.name) {
        true => Plain::without_empty(&Names::new(&side.grammar)),
        false => Plain::new(&Names::new(&side.grammar), false),
    });
    let [old_layout, new_layout] = &layouts;
    let new_worker = || {
        let mut old = Side::new(&old, old_letters, old_layout, settings.most);
        let mut new = Side::new(&new, new_letters, new_layout, settings.most);
        move |pieces: &[Piece], portion: &mut Portion<(Vec<u8>, Compared)>| {
            old.read(pieces, |_| {});
            new.read(pieces, |answer| portion.count(answer));
            let (out, compared) = &mut portion.kept;
            *compared = Compared::default();
            for at in 0..old.ends.len() {
                put_difference(old.word(at), new.word(at), out, compared);
            }
        }
    };
    let mut compared = Compared::default();
    work_through(sources, settings, new_worker, |(out, part): &mut (Vec<u8>, Compared)| {
        compared.add(part);
        put_out(out)
    })?;
    Ok(compared)
}

/// Where only one of two grammars has its names, both are compared without: else every word would have changed.
fn compare_alike(old: &mut Loaded, new: &mut Loaded) {
    let (named, bare) = match (old.named, new.named) {
        (true, false) => (old, new),
        (false, true) => (new, old),
        _ => return,
    };
    named.forget_names();
    failed(&format!("{} has no names beside it; compared is without names and glosses in words", bare.path.display()));
}

/// The readings of a batch's words by one grammar, a line each.
struct Side<'a> {
    asker: Asker<'a>,
    layout: &'a Plain,
    lines: Vec<u8>,
    /// Where the lines of each word end, and whether there are more of them.
    ends: Vec<(usize, bool)>,
}

impl<'a> Side<'a> {
    fn new(loaded: &'a Loaded, letters: &'a Letters<'a>, layout: &'a Plain, most: usize) -> Side<'a> {
        Side { asker: Asker::new(&loaded.image, letters, most), layout, lines: Vec::new(), ends: Vec::new() }
    }

    fn read(&mut self, pieces: &[Piece], mut each: impl FnMut(&Answer)) {
        let Side { asker, layout, lines, ends } = self;
        lines.clear();
        ends.clear();
        asker.answer(pieces, &mut |answer| {
            each(answer);
            for row in answer.rows.chunks_exact(ROW) {
                layout.put_reading(answer.word, row, lines);
            }
            ends.push((lines.len(), matches!(answer.outcome, Outcome::Answered(Reply::More(_)))));
        });
    }

    /// The lines of a word, and whether there are more.
    fn word(&self, at: usize) -> (&[u8], bool) {
        let from = at.checked_sub(1).map_or(0, |before| self.ends[before].0);
        let (to, more) = self.ends[at];
        (&self.lines[from..to], more)
    }
}

fn put_difference(old: (&[u8], bool), new: (&[u8], bool), out: &mut Vec<u8>, compared: &mut Compared) {
    compared.words += 1;
    compared.more += u64::from(old.1 || new.1);
    if old.0 == new.0 {
        return;
    }
    let (old, new) = (sorted_lines(old.0), sorted_lines(new.0));
    if old == new {
        return;
    }
    let (change, count) = match (old.is_empty(), new.is_empty()) {
        (true, _) => ("gained", &mut compared.gained),
        (_, true) => ("lost", &mut compared.lost),
        _ => ("changed", &mut compared.changed),
    };
    *count += 1;
    let mut put = |sign: &[u8], line: &[u8]| out.extend_from_slice(&[change.as_bytes(), sign, line].concat());
    left_over(&old, &new).for_each(|line| put(b"\t-\t", line));
    left_over(&new, &old).for_each(|line| put(b"\t+\t", line));
}

fn sorted_lines(text: &[u8]) -> Vec<&[u8]> {
    let mut lines: Vec<&[u8]> = text.split_inclusive(|&byte| byte == b'\n').collect();
    lines.sort_unstable();
    lines
}

/// The lines for each of which the others, sorted as they are, have no equal left. Two readings may say the same, and one of
/// them may be gone.
fn left_over<'a>(lines: &'a [&[u8]], others: &'a [&[u8]]) -> impl Iterator<Item = &'a [u8]> {
    let mut others = others.iter().peekable();
    lines.iter().copied().filter(move |line| {
        while others.next_if(|other| *other < line).is_some() {}
        others.next_if(|other| *other == line).is_none()
    })
}
