//! Words in, the library's answers out: each word is spelled, and many are asked for in one call.

use super::letters::Letters;
use super::pieces::Piece;
use super::spelling::{spell, Done, Reason};
use crate::lending::lend;
use crate::library::{self, Reply, PLACE, RECORD, ROW};

/// Words asked for in one call.
const WORDS: usize = 4096;
/// Rows that each of them has in that call; a word with more readings is asked for again by itself.
const SHARE: usize = 8;

/// What became of a word.
#[derive(Clone, Copy, Debug, PartialEq, Eq)]
pub enum Outcome {
    Answered(Reply),
    Unread(Reason),
}

/// A word with its answer.
pub struct Answer<'a> {
    /// As it is written, without the blanks around it.
    pub word: &'a [u8],
    /// The source and line that it stands in.
    pub source: usize,
    pub line: usize,
    pub done: Done,
    pub outcome: Outcome,
    /// A row a reading.
    pub rows: &'a [u8],
}

/// A word that waits for its answer.
struct Asked<'a> {
    word: &'a [u8],
    source: usize,
    line: usize,
    spelled: Result<Done, Reason>,
}

/// Asks the library by one grammar.
pub struct Asker<'a> {
    image: &'a [u8],
    letters: &'a Letters<'a>,
    /// Readings wanted of a word.
    most: usize,
    records: Vec<u8>,
    replies: Vec<u8>,
    rows: Vec<u8>,
    /// The rows of a word by itself.
    alone: Vec<u8>,
}

impl<'a> Asker<'a> {
    pub fn new(image: &'a [u8], letters: &'a Letters<'a>, most: usize) -> Asker<'a> {
        Asker { image, letters, most, records: Vec::new(), replies: Vec::new(), rows: Vec::new(), alone: Vec::new() }
    }

    /// Hands each word of the pieces with its answer to `each`, in their order.
    pub fn answer(&mut self, pieces: &[Piece], each: &mut impl FnMut(&Answer)) {
        let mut asked = Vec::with_capacity(WORDS);
        for piece in pieces {
            for line in piece.lines() {
                let spelled = self.spell(line.word, line.cut);
                asked.push(Asked { word: line.word, source: piece.source, line: line.number, spelled });
                if asked.len() == WORDS {
                    self.ask(&asked, each);
                    asked.clear();
                }
            }
        }
        self.ask(&asked, each);
    }

    /// Puts a word's record beside those before it. One that was cut has more letters than are there.
    fn spell(&mut self, word: &[u8], cut: bool) -> Result<Done, Reason> {
        let mut record = [0; RECORD];
        let done = spell(word, self.letters, &mut record)?;
        if cut {
            record[0] = RECORD as u8;
        }
        self.records.extend_from_slice(&record);
        Ok(done)
    }

    fn ask(&mut self, asked: &[Asked], each: &mut impl FnMut(&Answer)) {
        let count = self.records.len() / RECORD;
        let share = ROW * SHARE.min(self.most);
        self.replies.resize(PLACE * count, 0);
        if self.rows.len() < share * count {
            self.rows.resize(share * count, 0);
        }
        let refused = match count {
            0 => None,
            _ => {
                let rows = &mut self.rows[..share * count];
                library::analyse_words(self.image, &self.records, &mut self.replies, rows).refusal()
            }
        };
        let mut at = 0;
        for &Asked { word, source, line, spelled } in asked {
            let told = |done, outcome, rows| Answer { word, source, line, done, outcome, rows };
            let done = match spelled {
                Ok(done) => done,
                Err(reason) => {
                    each(&told(Done::default(), Outcome::Unread(reason), &[]));
                    continue;
                }
            };
            let reply = refused.map_or_else(|| reply(&self.replies, at), Reply::Refused);
            if matches!(reply, Reply::More(rows) if rows < self.most) {
                let word = word_of(&self.records, at);
                let (reply, rows) = lend(self.most, &mut self.alone, |rows| library::analyse(self.image, word, rows));
                each(&told(done, Outcome::Answered(reply), rows));
            } else {
                let rows = &self.rows[share * at..][..ROW * reply.rows()];
                each(&told(done, Outcome::Answered(reply), rows));
            }
            at += 1;
        }
        self.records.clear();
    }
}

fn reply(replies: &[u8], at: usize) -> Reply {
    let mut bytes = [0; PLACE];
    bytes.copy_from_slice(&replies[PLACE * at..][..PLACE]);
    Reply::of(u64::from_le_bytes(bytes))
}

/// The letters of a record that is not refused for its length.
fn word_of(records: &[u8], at: usize) -> &[u8] {
    let record = &records[RECORD * at..][..RECORD];
    &record[1..][..usize::from(record[0])]
}
