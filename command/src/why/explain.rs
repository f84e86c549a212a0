//! Gathers what can be said of a word without a reading: where it stops, and which rules, left out, would let it pass.

use super::hints;
use super::search::{furthest, Furthest, MOST_STEPS};
use super::tables::Tables;
use super::without::{ask, without, Readings};
use crate::library::{Reply, RECORD};
use crate::loaded::Loaded;
use crate::words::{spell, Letters};
use std::time::Duration;

/// The readings that are asked for, and how many where the one with fewest refusals is to be found.
const MOST_READINGS: usize = 64;
const MOST_WITHOUT_RULES: usize = 1024;
/// How long an answer of the library is waited for.
const TIME: Duration = Duration::from_secs(10);

pub enum Outcome {
    /// It cannot be spelled, and this is why.
    Unread(String),
    /// It has no letters or over 32, or is refused otherwise.
    Refused(u32),
    /// It has readings.
    Read(Readings),
    /// The library had not answered in time.
    Late,
    /// Letters of it are never written, and so it is read with others in their place.
    NeverWritten {
        why: Vec<String>,
        lowered: Option<(String, Readings)>,
    },
    None(Box<Nothing>),
}

/// What is known of a word without a reading.
pub struct Nothing {
    /// Its letters.
    pub word: Vec<u8>,
    pub furthest: Furthest,
    /// Without any rule, where no rules that are left out help and a way comes further then.
    pub without_rules: Option<Furthest>,
    /// Rules that, left out, leave readings: each alone, else those that refuse one reading together.
    pub left_out: Vec<LeftOut>,
    /// Not every rule was left out in turn, since an answer took too long.
    pub late: bool,
    pub rules: usize,
}

pub struct LeftOut {
    /// The places of the rules.
    pub rules: Vec<usize>,
    pub readings: Readings,
}

pub struct Explainer<'a> {
    pub loaded: &'a Loaded,
    pub tables: Tables<'a>,
    letters: Letters<'a>,
}

impl<'a> Explainer<'a> {
    pub fn new(loaded: &'a Loaded) -> Explainer<'a> {
        let letters = Letters::new(&loaded.image, &loaded.grammar);
        Explainer { loaded, tables: Tables::new(&loaded.grammar), letters }
    }

    /// The letters of a word, or what else becomes of it.
    fn spelled(&self, word: &[u8]) -> Result<Vec<u8>, Outcome> {
        let mut record = [0; RECORD];
        let unread = |reason| Outcome::Unread(hints::unread(reason, &self.loaded.grammar.alphabet));
        spell(word, &self.letters, &mut record).map_err(unread)?;
        // A word of over 32 letters has one more than a record has places for; the library refuses it, as it does an empty one.
        let mut letters = record[1..].to_vec();
        letters.resize(usize::from(record[0]), record[RECORD - 1]);
        Ok(letters)
    }

    /// The characters of letters.
    pub fn written(&self, letters: &[u8]) -> Vec<char> {
        letters.iter().map(|&letter| self.loaded.grammar.alphabet.character(letter)).collect()
    }

    pub fn explain(&self, word: &[u8]) -> Outcome {
        let letters = match self.spelled(word) {
            Ok(letters) => letters,
            Err(outcome) => return outcome,
        };
        let Some(readings) = ask(&self.loaded.image, &letters, MOST_READINGS, TIME) else {
            return Outcome::Late;
        };
        match readings.reply {
            Reply::All(_) | Reply::More(_) => return Outcome::Read(readings),
            Reply::Refused(number) => return Outcome::Refused(number),
            Reply::None => {}
        }
        let never = hints::never_written(&self.loaded.grammar, &letters);
        if never.is_empty() {
            return Outcome::None(Box::new(self.nothing(&letters)));
        }
        let why = never.iter().flat_map(|&letter| hints::never(letter, &self.loaded.grammar)).collect();
        let lowered = hints::lowered(&self.written(&letters), &never, &self.loaded.grammar.alphabet);
        let lowered = self.spelled(lowered.as_bytes()).ok().filter(|lowered| *lowered != letters).and_then(|letters| {
            let readings = ask(&self.loaded.image, &letters, MOST_READINGS, TIME)?;
            (readings.reply.rows() > 0).then(|| (self.written(&letters).iter().collect(), readings))
        });
        Outcome::NeverWritten { why, lowered }
    }

    fn nothing(&self, word: &[u8]) -> Nothing {
        let furthest_way = furthest(&self.tables, word, true, MOST_STEPS);
        let rules = self.loaded.grammar.rules.len();
        let mut nothing = Nothing {
            word: word.to_vec(),
            furthest: furthest_way,
            without_rules: None,
            left_out: Vec::new(),
            late: false,
            rules,
        };
        for rule in 0..rules {
            let Some(readings) = self.left_out(word, &[rule], MOST_READINGS) else {
                nothing.late = true;
                return nothing;
            };
            if readings.reply.rows() > 0 {
                nothing.left_out.push(LeftOut { rules: vec![rule], readings });
            }
        }
        if nothing.left_out.is_empty() && rules > 0 {
            self.leave_out_several(word, &mut nothing);
        }
        nothing
    }

    /// Where no rule alone is to blame: those that refuse one reading, as few as there are.
    fn leave_out_several(&self, word: &[u8], nothing: &mut Nothing) {
        let all: Vec<usize> = (0..nothing.rules).collect();
        let Some(readings) = self.left_out(word, &all, MOST_WITHOUT_RULES) else {
            nothing.late = true;
            return;
        };
        let refusing = |pairing: &[usize]| -> Vec<usize> {
            all.iter().copied().filter(|&rule| self.tables.refused_by(rule, pairing).is_some()).collect()
        };
        match readings.all().map(|(_, pairing)| refusing(&pairing)).min_by_key(Vec::len) {
            Some(rules) => match self.left_out(word, &rules, MOST_READINGS) {
                Some(readings) => nothing.left_out.push(LeftOut { rules, readings }),
                None => nothing.late = true,
            },
            None => {
                let way = furthest(&self.tables, word, false, MOST_STEPS);
                nothing.without_rules = Some(way).filter(|way| way.covered > nothing.furthest.covered);
            }
        }
    }

    fn left_out(&self, word: &[u8], rules: &[usize], most: usize) -> Option<Readings> {
        ask(&without(&self.loaded.image, rules), word, most, TIME)
    }
}
