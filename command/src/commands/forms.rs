//! `headwords forms`: the written forms of headwords.

use crate::arguments::{Choice, Given};
use crate::commands::read::{put_out, NUMBERS};
use crate::commands::Command;
use crate::failure::{failed, tell, Failure};
use crate::layout::put_field;
use crate::library::Reply;
use crate::loaded::load;
use crate::nearest::{is_meant, nearest};
use crate::paths::{Links, Writer, MOST_ENTRIES};
use crate::readings::Names;
use std::path::Path;

const MOST: Choice = Choice { name: "--most", value: Some("N"), what: "the most paths of a headword; else 1000" };
const MOST_PATHS: usize = 1000;
/// Entries looked at for each path that may be tried, so that lexicons that lead to no end do not keep it for ever.
const STEPS: usize = 100;
const MOST_WRITTEN: usize = 64;

pub const COMMAND: Command = Command {
    name: "forms",
    operands: "GRAMMAR HEADWORD...",
    count: 2..=usize::MAX,
    what: "the written forms of headwords",
    options: &[NUMBERS, MOST],
    more: "\
A headword is the gloss, or the form, of an entry that words begin with. Every path of at most 16 entries from there to the end
of a word is tried, and a line a written form is printed: the word, its headword, the entries with their glosses, the pairing;
and an empty line after each headword. One without a form gets HEADWORD<TAB>+?. Where the paths are more than --most, the first
of them are tried, and that is told; of a path with over 64 written forms the first are printed, and that is told too. A headword
that is not there is told, and gives status 1.
",
    run,
};

fn run(given: &Given) -> Result<(), Failure> {
    let most = given.number(MOST.name)?.unwrap_or(MOST_PATHS);
    let loaded = load(Path::new(&given.operands[0]))?;
    let names = Names::new(&loaded.grammar);
    let links = Links::new(&loaded.grammar);
    let mut is_well = true;
    for headword in &given.operands[1..] {
        let headword = headword.to_string_lossy();
        let first: Vec<usize> = links.after(None).filter(|&entry| is_headword(&names, entry, &headword)).collect();
        let mut walk = Walk {
            links: &links,
            writer: Writer::new(&loaded.image, &names, given.has(NUMBERS.name), MOST_WRITTEN),
            paths_left: most,
            steps_left: most.saturating_mul(STEPS),
            out: Vec::new(),
            is_written: false,
            is_cut: false,
            short: 0,
        };
        for &entry in &first {
            walk.follow(&mut vec![entry])?;
        }
        if first.is_empty() {
            tell_missing(&names, &links, &headword);
            is_well = false;
        }
        walk.end(&headword, most)?;
    }
    if is_well {
        Ok(())
    } else {
        Err(Failure::Told)
    }
}

fn is_headword(names: &Names, entry: usize, headword: &str) -> bool {
    let entry = &names.entries[entry];
    entry.headword == headword || entry.form == headword
}

fn tell_missing(names: &Names, links: &Links, headword: &str) {
    let elsewhere = (0..names.entries.len()).find(|&entry| is_headword(names, entry, headword));
    let what = match elsewhere {
        Some(entry) => format!("{} is in lexicon {}, where no word begins", headword, links.lexicon(entry)),
        None => {
            let headwords = links.after(None).map(|entry| names.entries[entry].headword.as_str());
            format!("no word begins with an entry {headword}{}", is_meant(nearest(headword, headwords)))
        }
    };
    tell(&format!("headwords: {what}\n"));
}

/// Goes through the paths that begin alike, depth first.
struct Walk<'a> {
    links: &'a Links<'a>,
    writer: Writer<'a>,
    paths_left: usize,
    steps_left: usize,
    out: Vec<u8>,
    is_written: bool,
    is_cut: bool,
    /// Paths with more written forms than are printed.
    short: usize,
}

/// Lines are handed over when there are as many bytes.
const FULL: usize = 65_536;

impl Walk<'_> {
    /// A path that may end here comes before those that go on.
    fn follow(&mut self, path: &mut Vec<usize>) -> Result<(), Failure> {
        let last = path.last().copied();
        let ends = last.is_some_and(|last| self.links.may_end(last));
        self.is_cut |= self.steps_left == 0 || ends && self.paths_left == 0;
        if self.is_cut {
            return Ok(());
        }
        self.steps_left -= 1;
        if ends {
            self.paths_left -= 1;
            let reply = self.writer.put(path, &mut self.out);
            self.is_written |= reply.rows() > 0;
            self.short += usize::from(matches!(reply, Reply::More(_)));
            if self.out.len() > FULL {
                put_out(&mut self.out)?;
            }
        }
        if path.len() < MOST_ENTRIES {
            for next in self.links.after(last) {
                path.push(next);
                self.follow(path)?;
                path.pop();
            }
        }
        Ok(())
    }

    fn end(&mut self, headword: &str, most: usize) -> Result<(), Failure> {
        let tried = paths(most - self.paths_left);
        if self.is_cut && self.paths_left == 0 {
            failed(&format!("{headword}: stopped after {tried}, and there are more; --most N tries N"));
        } else if self.is_cut {
            let entries = most.saturating_mul(STEPS);
            failed(&format!("{headword}: stopped after {entries} entries and {tried}; --most N tries {STEPS} N and N"));
        }
        if self.short > 0 {
            let paths = paths(self.short);
            failed(&format!(
                "{headword}: {paths} with over {MOST_WRITTEN} written forms, of which the first are printed"
            ));
        }
        if !self.is_written {
            put_field(headword.as_bytes(), &mut self.out);
            self.out.extend_from_slice(b"\t+?\n");
        }
        self.out.push(b'\n');
        put_out(&mut self.out)
    }
}

/// `1 path`, `2 paths`
fn paths(count: usize) -> String {
    format!("{count} path{}", if count == 1 { "" } else { "s" })
}
