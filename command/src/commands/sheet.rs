//! `headwords sheet`: the hand-over sheet.

use crate::arguments::{Choice, Given};
use crate::checksum::{checksum, Checksum};
use crate::commands::Command;
use crate::failure::{print, Failure};
use crate::layout::{put_field, put_word};
use crate::library::Reply;
use crate::loaded::{load, Loaded};
use crate::words::{
    self, work_through, Answer, Asker, Letters, Outcome, Piece, Portion, Settings, Source, Summary, Tally,
};
use std::io::{self, Read};
use std::path::Path;
use std::sync::{Arc, Mutex, PoisonError};

const PROGRAM: Choice =
    Choice { name: "--program", value: Some("NAME"), what: "the index program that takes the listing" };
const DATE: Choice = Choice { name: "--date", value: Some("DATE"), what: "the date of the sheet" };

pub const COMMAND: Command = Command {
    name: "sheet",
    operands: "GRAMMAR [WORDS]",
    count: 1..=2,
    what: "the hand-over sheet",
    options: &[PROGRAM, DATE, words::MOST, words::JOBS, words::QUIET, words::Q],
    more: "\
WORDS is a file of words, a line each; - or nothing is standard input. The sheet is text in Markdown: the grammar that is loaded
(file, checksum and counts of the image), the word list (file, checksum, counts), the words without a reading (none, unread,
refused, more told apart), the index program that takes the listing. What --program and --date do not say is left to fill in.
Checksums are those that cksum prints.
",
    run,
};

/// A place to write with a pen.
const BLANK: &str = "________________";

fn run(given: &Given) -> Result<(), Failure> {
    let settings = Settings { summary: Summary::Never, ..Settings::of(given)? };
    let loaded = load(Path::new(&given.operands[0]))?;
    let file = given.operands.get(1).map(|file| file.as_os_str());
    let mut sources = words::open(&[], file.as_slice())?;
    let name = sources[0].name.whole().to_string();
    let sum = sum_of(&mut sources[0]);
    let (tally, listed) = read_words(&loaded, sources, &settings)?;
    let sum = sum.lock().unwrap_or_else(PoisonError::into_inner).end();
    let filled = |choice: &Choice| given.value(choice.name).map_or(BLANK.into(), |value| value.to_string_lossy());
    let mut sheet = format!("# Hand-over sheet\n\nDate: {}\n", filled(&DATE));
    sheet += &grammar_part(&loaded);
    sheet += &words_part(&name, sum, &tally, settings.most);
    sheet += &lists_part(&listed, &tally, settings.most);
    sheet += &format!("\n## Index program\n\nTakes the listing: {}\n", filled(&PROGRAM));
    print(&sheet)
}

/// What passes through while a source is read is summed.
struct Summed {
    bytes: Box<dyn Read + Send>,
    sum: Arc<Mutex<Checksum>>,
}

impl Read for Summed {
    fn read(&mut self, to: &mut [u8]) -> io::Result<usize> {
        let count = self.bytes.read(to)?;
        self.sum.lock().unwrap_or_else(PoisonError::into_inner).add(&to[..count]);
        Ok(count)
    }
}

fn sum_of(source: &mut Source) -> Arc<Mutex<Checksum>> {
    let sum = Arc::new(Mutex::new(Checksum::default()));
    let bytes = std::mem::replace(&mut source.bytes, Box::new(io::empty()));
    source.bytes = Box::new(Summed { bytes, sum: sum.clone() });
    sum
}

/// The lines of words without a reading, or with more than are wanted: none, unread, refused, more.
type Listed = [Vec<u8>; 4];

fn read_words(loaded: &Loaded, sources: Vec<Source>, settings: &Settings) -> Result<(Tally, Listed), Failure> {
    let letters = Letters::new(&loaded.image, &loaded.grammar);
    let new_worker = || {
        let mut asker = Asker::new(&loaded.image, &letters, settings.most);
        move |pieces: &[Piece], portion: &mut Portion<Listed>| {
            let mut listed = std::mem::take(&mut portion.kept);
            asker.answer(pieces, &mut |answer| {
                portion.count(answer);
                list(answer, &mut listed);
            });
            portion.kept = listed;
        }
    };
    let mut all = Listed::default();
    let tally = work_through(sources, settings, new_worker, |part: &mut Listed| {
        for (all, part) in all.iter_mut().zip(part) {
            all.append(part);
        }
        Ok(())
    })?;
    Ok((tally, all))
}

fn list(answer: &Answer, [none, unread, refused, more]: &mut Listed) {
    let (list, why) = match answer.outcome {
        Outcome::Answered(Reply::All(_)) => return,
        Outcome::Answered(Reply::None) => (none, String::new()),
        Outcome::Answered(Reply::More(_)) => (more, String::new()),
        Outcome::Answered(Reply::Refused(number)) => (refused, format!("\trefused {number}")),
        Outcome::Unread(reason) => (unread, format!("\t{reason}")),
    };
    list.extend_from_slice(b"    ");
    put_word(answer, list);
    list.extend_from_slice(why.as_bytes());
    list.push(b'\n');
}

fn grammar_part(loaded: &Loaded) -> String {
    let file = loaded.path.display().to_string();
    let mut rows = vec![("file", file), ("cksum of the image", checksum(&loaded.image).to_string())];
    rows.extend(loaded.counts().map(|(things, count)| (things, count.to_string())));
    format!("\n## Grammar\n\n{}", table(&rows))
}

fn words_part(name: &str, sum: u32, tally: &Tally, most: usize) -> String {
    let more = format!("over {most} readings");
    let rows = [
        ("file", name.to_string()),
        ("cksum", sum.to_string()),
        ("words", tally.words.to_string()),
        ("with a reading", tally.read.to_string()),
        ("none", tally.none.to_string()),
        ("unread", tally.unread.to_string()),
        ("refused", tally.refused.to_string()),
        (&more, tally.more.to_string()),
        ("with capitals folded", tally.folded.to_string()),
        ("with accents joined", tally.composed.to_string()),
    ];
    format!("\n## Word list\n\n{}", table(&rows))
}

fn table(rows: &[(&str, String)]) -> String {
    let row = |(what, value): &(&str, String)| format!("| {what} | {} |\n", cell(value));
    format!("| | |\n|---|---|\n{}", rows.iter().map(row).collect::<String>())
}

/// A bar would end the cell.
fn cell(text: &str) -> String {
    let mut out = Vec::new();
    put_field(text.as_bytes(), &mut out);
    String::from_utf8_lossy(&out).replace('|', "\\|")
}

fn lists_part(listed: &Listed, tally: &Tally, most: usize) -> String {
    let more = format!("Over {most} readings");
    let titles = ["None", "Unread", "Refused", &more];
    let counts = [tally.none, tally.unread, tally.refused, tally.more];
    let mut part = "\n## Words without a reading, or with too many\n".to_string();
    for ((title, count), list) in titles.iter().zip(counts).zip(listed) {
        part += &format!("\n### {title}: {count}\n");
        if !list.is_empty() {
            part += &format!("\n{}", String::from_utf8_lossy(list));
        }
    }
    part
}
