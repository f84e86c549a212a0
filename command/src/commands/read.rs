//! `headwords read`: the readings of words.

use crate::arguments::{Choice, Given};
use crate::commands::Command;
use crate::failure::{print, put, Failure};
use crate::layout::{Json, Layout, Plain, Tsv};
use crate::loaded::load;
use crate::readings::Names;
use crate::words::{self, work_through, Asker, Letters, Piece, Portion, Settings};
use std::path::Path;

const TSV: Choice = Choice { name: "--tsv", value: None, what: "columns divided by tabs, the same for every word" };
const HEADER: Choice =
    Choice { name: "--header", value: None, what: "with --tsv, a first line that names the columns" };
const JSON: Choice = Choice { name: "--json", value: None, what: "a line of JSON a word" };
pub const NUMBERS: Choice = Choice { name: "--numbers", value: None, what: "the numbers of entries and pairs too" };

pub const COMMAND: Command = Command {
    name: "read",
    operands: "GRAMMAR [WORD...]",
    count: 1..=usize::MAX,
    what: "the readings of words",
    options: &[
        words::FILE,
        TSV,
        HEADER,
        JSON,
        NUMBERS,
        words::MOST,
        words::JOBS,
        words::SUMMARY,
        words::QUIET,
        words::Q,
    ],
    more: "\
Words are UTF-8, a line each, in files or standard input where no WORD is given. A line a reading is printed: the word, its
headword, the entries with their glosses, the pairing, divided by tabs; and an empty line after each word. The headword is the
first entry's gloss; where that is not in words, its form. A word without a reading gets

  WORD<TAB>+?                 none
  WORD<TAB>+?<TAB>unread      a character is no letter of the grammar, or the line is not UTF-8; why is told on standard error
  WORD<TAB>+?<TAB>refused 9   over 32 letters, or none
  WORD<TAB>+...<TAB>more 64   after 64 readings, where there are more (--most)

Capitals that are no letters themselves are folded, accents that stand by themselves are joined with their letters, a byte
order mark is dropped; in how many words is told on standard error.
The columns of --tsv are word, outcome, headword, forms, glosses (divided by |), pairing; and entry numbers, pair numbers.
The status is 0, though words have no reading; 1 where something cannot be read or written or the grammar is refused.
",
    run,
};

fn run(given: &Given) -> Result<(), Failure> {
    let settings = Settings::of(given)?;
    if given.has(TSV.name) && given.has(JSON.name) {
        return Err(Failure::Usage("--tsv and --json go not together".to_string()));
    }
    if given.has(HEADER.name) && !given.has(TSV.name) {
        return Err(Failure::Usage("--header goes with --tsv".to_string()));
    }
    let loaded = load(Path::new(&given.operands[0]))?;
    let sources = words::open(&given.operands[1..], &given.values(words::FILE.name))?;
    let layout = layout(given, &Names::new(&loaded.grammar))?;
    let letters = Letters::new(&loaded.image, &loaded.grammar);
    let new_worker = || {
        let mut asker = Asker::new(&loaded.image, &letters, settings.most);
        let layout = &*layout;
        move |pieces: &[Piece], portion: &mut Portion<Vec<u8>>| {
            let mut out = std::mem::take(&mut portion.kept);
            asker.answer(pieces, &mut |answer| {
                portion.count(answer);
                layout.answer(answer, &mut out);
            });
            portion.kept = out;
        }
    };
    work_through(sources, &settings, new_worker, put_out)?;
    Ok(())
}

fn layout(given: &Given, names: &Names) -> Result<Box<dyn Layout>, Failure> {
    let with_numbers = given.has(NUMBERS.name);
    if given.has(JSON.name) {
        return Ok(Box::new(Json::new(names, with_numbers)));
    }
    if !given.has(TSV.name) {
        return Ok(Box::new(Plain::new(names, with_numbers)));
    }
    let tsv = Tsv::new(names, with_numbers);
    if given.has(HEADER.name) {
        print(&tsv.header())?;
    }
    Ok(Box::new(tsv))
}

/// Writes what was made of a batch, which is then to be made anew.
pub fn put_out(made: &mut Vec<u8>) -> Result<(), Failure> {
    put(made)?;
    made.clear();
    Ok(())
}
