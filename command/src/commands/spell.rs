//! `headwords spell`: the letter numbers of words, for the line program.

use crate::arguments::Given;
use crate::commands::read::put_out;
use crate::commands::Command;
use crate::failure::Failure;
use crate::library::{Reply, RECORD};
use crate::loaded::load;
use crate::words::{
    self, spell, work_through, Answer, Done, Letters, Line, Outcome, Piece, Portion, Settings, Summary,
};
use std::path::Path;

pub const COMMAND: Command = Command {
    name: "spell",
    operands: "GRAMMAR",
    count: 1..=1,
    what: "the letter numbers of words, for the line program",
    options: &[words::FILE, words::QUIET, words::Q],
    more: "\
Words are UTF-8, a line each, in files or standard input. Each becomes a line of letter numbers. One that cannot be spelled
becomes ?, which the line program answers with unread, and the reason is told on standard error. Of a word over 32 letters 33
are printed, which the line program refuses with 9.
",
    run,
};

fn run(given: &Given) -> Result<(), Failure> {
    let settings = Settings { jobs: 1, summary: Summary::Never, ..Settings::of(given)? };
    let loaded = load(Path::new(&given.operands[0]))?;
    let sources = words::open(&[], &given.values(words::FILE.name))?;
    let letters = Letters::new(&loaded.image, &loaded.grammar);
    let numbers: Vec<String> = (0..=u8::MAX).map(|number| number.to_string()).collect();
    let new_worker = || {
        let (letters, numbers) = (&letters, &numbers);
        move |pieces: &[Piece], portion: &mut Portion<Vec<u8>>| {
            for piece in pieces {
                for line in piece.lines() {
                    let outcome = put_line(line, letters, numbers, &mut portion.kept);
                    let (source, line, word) = (piece.source, line.number, line.word);
                    portion.count(&Answer { word, source, line, done: Done::default(), outcome, rows: &[] });
                }
            }
        }
    };
    work_through(sources, &settings, new_worker, put_out)?;
    Ok(())
}

fn put_line(line: Line, letters: &Letters, numbers: &[String], out: &mut Vec<u8>) -> Outcome {
    let mut record = [0; RECORD];
    let outcome = match spell(line.word, letters, &mut record) {
        Ok(_) => Outcome::Answered(Reply::None),
        Err(reason) => Outcome::Unread(reason),
    };
    if let Outcome::Unread(_) = outcome {
        out.push(b'?');
    } else {
        let count = if line.cut { RECORD } else { usize::from(record[0]) };
        // A letter more than a record has places for is any letter.
        let last = record[RECORD - 1];
        let spelled = record[1..].iter().chain([&last]).take(count);
        for (at, &letter) in spelled.enumerate() {
            if at > 0 {
                out.push(b' ');
            }
            out.extend_from_slice(numbers[usize::from(letter)].as_bytes());
        }
    }
    out.push(b'\n');
    outcome
}
