//! `headwords generate`: the written forms of a path of entries.

use crate::arguments::{Choice, Given};
use crate::commands::read::{put_out, NUMBERS};
use crate::commands::Command;
use crate::failure::{failed, tell, Failure};
use crate::layout::{outcome, put_field};
use crate::library::Reply;
use crate::loaded::load;
use crate::paths::{Entries, Links, Writer};
use crate::readings::Names;
use crate::refusals;
use crate::words::{self, Line, Outcome, Pieces, Source, SourceName};
use std::ffi::OsString;
use std::path::Path;

pub const FILE: Choice =
    Choice { name: "--file", value: Some("FILE"), what: "paths from a file, a line each; - is standard input" };
pub const MOST: Choice = Choice {
    name: "--most",
    value: Some("N"),
    what: "the most forms of a path, and ways to link its entries; else 64",
};
const MOST_FORMS: usize = 64;

pub const COMMAND: Command = Command {
    name: "generate",
    operands: "GRAMMAR [ENTRY...]",
    count: 1..=usize::MAX,
    what: "the written forms of a path of entries",
    options: &[FILE, NUMBERS, MOST],
    more: "\
The entries are one path, as in luZ +es; without any, and with --file, each line is a path. An entry is given by its form, by
its form and gloss as readings show it, luZ (luz), or by its number. Where several entries have the form, all ways to link them
are tried, and that is told. A line a written form is printed: the word, its headword, the entries with their glosses, the
pairing; and an empty line after each path. A path that no word is written by gets

  PATH<TAB>+?                 none
  PATH<TAB>+?<TAB>unread      there is no such entry
  PATH<TAB>+?<TAB>refused 12  the entries are not linked; 11 where there are over 16, or none

The last two are told on standard error, and give status 1.
",
    run,
};

fn run(given: &Given) -> Result<(), Failure> {
    let most = given.number(MOST.name)?.unwrap_or(MOST_FORMS);
    let loaded = load(Path::new(&given.operands[0]))?;
    let path = joined(&given.operands[1..]);
    let sources = words::open(path.as_slice(), &given.values(FILE.name))?;
    let names = Names::new(&loaded.grammar);
    let links = Links::new(&loaded.grammar);
    let entries = Entries::new(&names, &links);
    let writer = Writer::new(&loaded.image, &names, given.has(NUMBERS.name), most);
    let mut generator = Generator { entries, writer, most, out: Vec::new(), is_well: true };
    generator.all(sources)?;
    if generator.is_well {
        Ok(())
    } else {
        Err(Failure::Told)
    }
}

/// All entries that are arguments are one path.
fn joined(entries: &[OsString]) -> Vec<OsString> {
    if entries.is_empty() {
        return Vec::new();
    }
    vec![entries.join(" ".as_ref())]
}

struct Generator<'a> {
    entries: Entries<'a>,
    writer: Writer<'a>,
    most: usize,
    out: Vec<u8>,
    is_well: bool,
}

impl Generator<'_> {
    fn all(&mut self, sources: Vec<Source>) -> Result<(), Failure> {
        let names: Vec<SourceName> = sources.iter().map(|source| source.name.clone()).collect();
        let mut pieces = Pieces::new(sources);
        while let Some(piece) = pieces.next().map_err(|what| failed(&what))? {
            for line in piece.lines() {
                self.line(&line, &names[piece.source]);
                put_out(&mut self.out)?;
            }
        }
        Ok(())
    }

    fn line(&mut self, line: &Line, source: &SourceName) {
        let text = String::from_utf8_lossy(line.word);
        let place = match source {
            SourceName::Arguments => "headwords".to_string(),
            SourceName::File(_) => source.place(line.number),
        };
        let reply = match self.entries.read(&text) {
            Ok(places) => Ok(self.path(&text, &places, &place)),
            Err(what) => {
                tell(&format!("{place}: unread: {what}\n"));
                Err(())
            }
        };
        let mark = match reply {
            Ok(Reply::All(_)) => None,
            Ok(Reply::None) => Some("+?".to_string()),
            Ok(reply @ Reply::More(_)) => Some(format!("+...\t{}", outcome(Outcome::Answered(reply)))),
            Ok(reply) => Some(format!("+?\t{}", outcome(Outcome::Answered(reply)))),
            Err(()) => Some("+?\tunread".to_string()),
        };
        self.is_well &= !matches!(reply, Err(()) | Ok(Reply::Refused(_)));
        if let Some(mark) = mark {
            put_field(text.as_bytes(), &mut self.out);
            self.out.extend_from_slice(format!("\t{mark}\n").as_bytes());
        }
        self.out.push(b'\n');
    }

    /// The forms of every way to link the entries. Where there is none, the library says what it refuses.
    fn path(&mut self, text: &str, places: &[Vec<usize>], place: &str) -> Reply {
        let mut paths = self.entries.linked(places, self.most.saturating_add(1));
        let is_cut = paths.len() > self.most;
        paths.truncate(self.most);
        if is_cut {
            tell(&format!("{place}: {text}: the entries can be linked in over {} ways; --most N tries N\n", self.most));
        } else if paths.len() > 1 {
            tell(&format!("{place}: {text}: the entries can be linked in {} ways\n", paths.len()));
        }
        if paths.is_empty() {
            let first: Vec<usize> = places.iter().filter_map(|place| place.first().copied()).collect();
            let reply = self.writer.put(&first, &mut self.out);
            if reply == Reply::Refused(12) {
                tell(&format!("{place}: refused 12: {}\n", self.entries.not_linked(places)));
            } else if let Reply::Refused(number) = reply {
                tell(&format!("{place}: {}\n", refusals::told(number)));
            }
            return reply;
        }
        let replies: Vec<Reply> = paths.iter().map(|path| self.writer.put(path, &mut self.out)).collect();
        let count = replies.iter().map(|reply| reply.rows()).sum();
        match is_cut || replies.iter().any(|reply| matches!(reply, Reply::More(_))) {
            true => Reply::More(count),
            false if count > 0 => Reply::All(count),
            false => Reply::None,
        }
    }
}
