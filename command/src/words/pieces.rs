//! Cuts what is read from the sources into pieces of whole lines, as they come.

use super::sources::Source;
use super::spelling::{blanks_before, trimmed};
use std::io::{self, ErrorKind, Read};

/// Bytes asked for in one read.
const READ: usize = 65_536;
/// Bytes kept of a line. Every word that is longer has too many letters.
const LONGEST: usize = 65_536;
/// Some editors put this mark before a text in UTF-8; it is no part of it.
const BYTE_ORDER_MARK: &[u8] = b"\xEF\xBB\xBF";

/// Some whole lines of one source; the last may be without its end.
#[derive(Debug, Default)]
pub struct Piece {
    pub bytes: Vec<u8>,
    /// Which source, from 0.
    pub source: usize,
    /// The number of its first line there.
    pub first_line: usize,
    /// A byte order mark stood before it.
    pub marked: bool,
    /// The last line went on, and the rest of it is not kept.
    pub cut: bool,
}

/// A word of a piece.
#[derive(Clone, Copy, Debug)]
pub struct Line<'a> {
    /// Without the blanks around it.
    pub word: &'a [u8],
    pub number: usize,
    pub cut: bool,
}

impl Piece {
    pub fn lines(&self) -> impl Iterator<Item = Line<'_>> {
        let whole = self.bytes.strip_suffix(b"\n").unwrap_or(&self.bytes);
        let mut rest = Some(whole);
        let mut numbers = self.first_line..;
        std::iter::from_fn(move || {
            let from = rest?;
            let end = from.iter().position(|&byte| byte == b'\n');
            rest = end.map(|end| &from[end + 1..]);
            let word = trimmed(&from[..end.unwrap_or(from.len())]);
            numbers.next().map(|number| Line { word, number, cut: self.cut && rest.is_none() })
        })
    }
}

/// The pieces of some sources, one source after the other.
pub struct Pieces {
    sources: std::vec::IntoIter<Source>,
    current: Option<Source>,
    /// Which source is the current one.
    number: usize,
    line: usize,
    /// What is read of a line that has no end yet.
    begun: Vec<u8>,
}

impl Pieces {
    pub fn new(sources: Vec<Source>) -> Pieces {
        let mut sources = sources.into_iter();
        let current = sources.next();
        Pieces { sources, current, number: 0, line: 1, begun: Vec::new() }
    }

    /// What comes next; none where all sources are at their end. Fewer bytes than a read asks for are handed on too, so that
    /// no line waits for input that may never come.
    pub fn next(&mut self) -> Result<Option<Piece>, String> {
        while let Some(source) = &mut self.current {
            let count = read_some(source, &mut self.begun)?;
            if count == 0 {
                let last = self.rest_of_source();
                if !last.bytes.is_empty() {
                    return Ok(Some(last));
                }
            } else if let Some(back) = self.begun.iter().rev().take(count).position(|&byte| byte == b'\n') {
                let after = self.begun.split_off(self.begun.len() - back);
                let whole = std::mem::replace(&mut self.begun, after);
                return Ok(Some(self.piece(whole, false)));
            } else if self.begun.len() > LONGEST {
                if let Some(piece) = self.long_line()? {
                    return Ok(Some(piece));
                }
            }
        }
        Ok(None)
    }

    fn piece(&mut self, mut bytes: Vec<u8>, cut: bool) -> Piece {
        let (source, first_line) = (self.number, self.line);
        self.line += bytes.iter().filter(|&&byte| byte == b'\n').count();
        let marked = first_line == 1 && bytes.starts_with(BYTE_ORDER_MARK);
        if marked {
            bytes.drain(..BYTE_ORDER_MARK.len());
        }
        Piece { bytes, source, first_line, marked, cut }
    }

    /// The last line of a source, where that has no end; then the next source is the current one.
    fn rest_of_source(&mut self) -> Piece {
        let bytes = std::mem::take(&mut self.begun);
        let last = self.piece(bytes, false);
        self.current = self.sources.next();
        self.number += 1;
        self.line = 1;
        last
    }

    /// A line that is too long to keep: its beginning, without the blanks before it; none where that is not too long. Blanks
    /// after it are no part of the word.
    fn long_line(&mut self) -> Result<Option<Piece>, String> {
        self.begun.drain(..blanks_before(&self.begun));
        if self.begun.len() <= LONGEST {
            return Ok(None);
        }
        let mut rest = self.begun.split_off(character_start(&self.begun, LONGEST));
        let mut kept = std::mem::take(&mut self.begun);
        let mut blank = trimmed(&rest).is_empty();
        let Some(source) = &mut self.current else {
            return Ok(None);
        };
        loop {
            rest.clear();
            let count = read_some(source, &mut rest)?;
            let end = rest.iter().position(|&byte| byte == b'\n');
            blank &= trimmed(&rest[..end.unwrap_or(rest.len())]).is_empty();
            if let Some(end) = end {
                self.begun = rest.split_off(end + 1);
            }
            if end.is_some() || count == 0 {
                kept.push(b'\n');
                return Ok(Some(self.piece(kept, !blank)));
            }
        }
    }
}

/// Where the character begins that a cut at `at` would cut in two.
fn character_start(bytes: &[u8], at: usize) -> usize {
    let goes_on = |&at: &usize| bytes.get(at).is_some_and(|byte| byte & 0xC0 == 0x80);
    (at - 3..=at).rev().find(|at| !goes_on(at)).unwrap_or(at)
}

fn read_some(source: &mut Source, to: &mut Vec<u8>) -> Result<usize, String> {
    let from = to.len();
    to.resize(from + READ, 0);
    let count = loop {
        match source.bytes.read(&mut to[from..]) {
            Err(error) if error.kind() == ErrorKind::Interrupted => {}
            other => break other,
        }
    };
    to.truncate(from + *count.as_ref().unwrap_or(&0));
    count.map_err(|error: io::Error| format!("{}: {error}", source.name.whole()))
}

#[cfg(test)]
mod tests {
    use super::*;
    use crate::words::SourceName;
    use std::io::Cursor;

    /// Gives a few bytes at a time, as a slow pipe does.
    struct Slow(Cursor<Vec<u8>>, usize);

    impl Read for Slow {
        fn read(&mut self, to: &mut [u8]) -> io::Result<usize> {
            let most = to.len().min(self.1);
            self.0.read(&mut to[..most])
        }
    }

    fn source(bytes: &[u8], at_once: usize) -> Source {
        let bytes = Box::new(Slow(Cursor::new(bytes.to_vec()), at_once));
        Source { name: SourceName::Arguments, bytes, size: None, is_typed: false }
    }

    /// Source, line, word, whether it was cut; and how many marks were dropped.
    fn read(sources: Vec<Source>) -> (Vec<(usize, usize, String, bool)>, usize) {
        let (mut words, mut marks) = (Vec::new(), 0);
        let mut pieces = Pieces::new(sources);
        while let Some(piece) = pieces.next().unwrap() {
            marks += usize::from(piece.marked);
            words.extend(
                piece
                    .lines()
                    .map(|line| (piece.source, line.number, String::from_utf8_lossy(line.word).into_owned(), line.cut)),
            );
        }
        (words, marks)
    }

    fn word(source: usize, line: usize, word: &str) -> (usize, usize, String, bool) {
        (source, line, word.to_string(), false)
    }

    #[test]
    fn lines_are_words_without_blanks() {
        for at_once in [1, 2, 3, 7, 100_000] {
            let first = source(b"\xEF\xBB\xBFluz\r\n\t lu z  \n\n \xEF\xBB\xBF", at_once);
            let (words, marks) = read(vec![first, source(b"", at_once), source(b"\n\nluc", at_once)]);
            let right = [word(0, 1, "luz"), word(0, 2, "lu z"), word(0, 3, ""), word(0, 4, "\u{feff}")];
            assert_eq!(words[..4], right);
            assert_eq!(words[4..], [word(2, 1, ""), word(2, 2, ""), word(2, 3, "luc")]);
            assert_eq!(marks, 1);
        }
    }

    #[test]
    fn a_long_line_is_cut() {
        let blanks = " ".repeat(200_000);
        let letters = "é".repeat(100_000);
        let text = format!("{blanks}luz{blanks}\nx{letters}\n{letters}{blanks}\n{blanks}\nluc{blanks}u");
        for at_once in [50_001, 100_000] {
            let (words, _) = read(vec![source(text.as_bytes(), at_once)]);
            assert_eq!(words[0], word(0, 1, "luz"));
            let (_, line, cut, is_cut) = &words[1];
            assert!(*line == 2 && *is_cut && cut.len() >= LONGEST - 3 && cut.starts_with("xéé") && cut.ends_with("éé"));
            assert!(words[2].3 && words[2].2.ends_with('é'));
            assert_eq!(words[3], word(0, 4, ""));
            assert_eq!((words[4].1, words[4].2.as_str(), words[4].3), (5, "luc", true));
            assert_eq!(words.len(), 5);
        }
    }
}
