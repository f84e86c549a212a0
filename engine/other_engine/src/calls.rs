//! Every public call is its own tests in order and then its definition, on an image already read or refused.

use crate::folding::folded;
use crate::grammar::{Grammar, BOUNDARY};
use crate::image;
use crate::listing::{list, refused, ROW};
use crate::pairings::Budget;
use crate::reading::{Reading, Stop};
use crate::written_rules;
use std::collections::BTreeMap;

/// The bytes of a word's record: its length, then its letters.
pub const RECORD: usize = 33;

/// The bytes of a reply's place.
pub const PLACE: usize = 8;

/// An image as the image check left it.
pub type Known = Result<Grammar, u8>;

fn accepted(known: &Known) -> Result<&Grammar, u8> {
    known.as_ref().map_err(|&k| k)
}

/// Bytes as numbers of two bytes each.
pub fn numbers(bytes: &[u8]) -> Vec<u16> {
    bytes
        .chunks_exact(2)
        .map(|two| u16::from_le_bytes([two[0], two[1]]))
        .collect()
}

/// Tests 11 and 12, in order.
fn complete(grammar: &Grammar, path: &[u8]) -> Result<Vec<u16>, u8> {
    if path.is_empty() || path.len() > 32 || path.len() % 2 == 1 {
        return Err(11);
    }
    let path = numbers(path);
    if grammar.linked(&path) {
        Ok(path)
    } else {
        Err(12)
    }
}

/// Test 13.
fn paired(grammar: &Grammar, pairing: &[u8]) -> Result<(), u8> {
    let is_listed = |&pair: &u8| usize::from(pair) < grammar.pairs.len();
    if (1..=40).contains(&pairing.len()) && pairing.iter().all(is_listed) {
        Ok(())
    } else {
        Err(13)
    }
}

/// All readings of a word, in step order.
pub fn analyse(known: &Known, word: &[u8]) -> Result<Vec<Reading>, Stop> {
    analyse_within(Budget::default(), known, word)
}

/// All readings of a word, in step order, where this budget is enough.
pub fn analyse_within(
    mut budget: Budget,
    known: &Known,
    word: &[u8],
) -> Result<Vec<Reading>, Stop> {
    let grammar = accepted(known).map_err(Stop::Refused)?;
    if word.is_empty() || word.len() > 32 {
        return Err(Stop::Refused(9));
    }
    if word
        .iter()
        .any(|&y| !(2..=grammar.letters.len()).contains(&usize::from(y)))
    {
        return Err(Stop::Refused(10));
    }
    let by_form = grammar
        .paths_for(word, &mut budget)
        .map_err(|_| Stop::TooBig)?;
    let mut readings = Vec::new();
    for (joined, paths) in &by_form {
        for pairing in grammar.pairings_against(joined, word) {
            if grammar.reads(joined, &pairing, word) {
                budget.take(paths.len() as u64).map_err(|_| Stop::TooBig)?;
                for path in paths {
                    readings.push(Reading {
                        path: path.clone(),
                        pairing: pairing.clone(),
                    });
                }
            }
        }
    }
    Ok(grammar.in_step_order(readings))
}

/// The word of a record, where its length is that of a word that fits.
pub fn word_of(record: &[u8]) -> Option<&[u8]> {
    record.get(1..=usize::from(record[0]))
}

/// How many words are answered: as many as have a whole record and a whole place.
pub fn word_count(words: &[u8], replies: &[u8]) -> usize {
    (words.len() / RECORD).min(replies.len() / PLACE)
}

/// Writes each word's reply into its place and its rows into its share, and replies by number. Each different word is listed once.
pub fn words_reply(
    known: &Known,
    words: &[u8],
    replies: &mut [u8],
    rows: &mut [u8],
) -> Result<u64, Stop> {
    if let Err(k) = known {
        return Ok(refused(*k));
    }
    let count = word_count(words, replies);
    let share = rows.len() / ROW / count.max(1) * ROW;
    let mut listed = BTreeMap::new();
    for i in 0..count {
        let own = &mut rows[share * i..share * (i + 1)];
        let reply = match word_of(&words[RECORD * i..RECORD * (i + 1)]) {
            None => refused(9),
            Some(word) => match listed.entry(word).or_insert_with(|| analyse(known, word)) {
                Ok(readings) => list(readings, own),
                Err(Stop::Refused(k)) => refused(*k),
                Err(Stop::TooBig) => return Err(Stop::TooBig),
            },
        };
        replies[PLACE * i..PLACE * (i + 1)].copy_from_slice(&reply.to_le_bytes());
    }
    Ok(4 * count as u64 + 1)
}

/// All readings of a path, in step order.
pub fn generate(known: &Known, path: &[u8]) -> Result<Vec<Reading>, Stop> {
    generate_within(Budget::default(), known, path)
}

/// All readings of a path, in step order, where this budget is enough.
pub fn generate_within(
    mut budget: Budget,
    known: &Known,
    path: &[u8],
) -> Result<Vec<Reading>, Stop> {
    let grammar = accepted(known).map_err(Stop::Refused)?;
    let path = complete(grammar, path).map_err(Stop::Refused)?;
    let joined = grammar.joined(&path);
    budget
        .take(grammar.pairing_work(&joined))
        .map_err(|_| Stop::TooBig)?;
    let readings = grammar
        .pairings_of(&joined)
        .into_iter()
        .filter(|pairing| grammar.reads(&joined, pairing, &grammar.spelled(pairing)))
        .map(|pairing| Reading {
            path: path.clone(),
            pairing,
        })
        .collect();
    Ok(grammar.in_step_order(readings))
}

/// Whether path and pairing are a reading of the word the pairing spells, or the refusal.
pub fn judge(known: &Known, path: &[u8], pairing: &[u8]) -> Result<bool, u8> {
    let grammar = accepted(known)?;
    let path = complete(grammar, path)?;
    paired(grammar, pairing)?;
    Ok(grammar.reads(&grammar.joined(&path), pairing, &grammar.spelled(pairing)))
}

/// Whether a pairing keeps each rule of a text, or the refusal.
pub fn judge_rules(known: &Known, pairing: &[u8], text: &[u8]) -> Result<bool, u8> {
    let grammar = accepted(known)?;
    paired(grammar, pairing)?;
    let rules = written_rules::read(text).ok_or(19)?;
    let pairs = grammar.pairs.len();
    if !rules.iter().all(|rule| rule.names_pairs_below(pairs)) {
        return Err(20);
    }
    Ok(rules.iter().all(|rule| rule.kept(grammar, pairing)))
}

/// The letters of an entry's form, or the refusal.
pub fn form(known: &Known, entry: usize) -> Result<&[u8], u8> {
    let grammar = accepted(known)?;
    grammar
        .entries
        .get(entry)
        .map(|entry| &entry.form[..])
        .ok_or(12)
}

/// The letter of a code point: its own where the alphabet has it, and only otherwise that of what it is folded to. The boundary is no letter of a word.
pub fn letter_spelled(grammar: &Grammar, point: u16) -> Option<u8> {
    let own = grammar.letter(point);
    own.or_else(|| grammar.letter(folded(point)))
        .filter(|&letter| letter != BOUNDARY)
}

/// The word that code points spell, or the refusal.
pub fn spell(known: &Known, points: &[u8]) -> Result<Vec<u8>, u8> {
    let grammar = accepted(known)?;
    if points.is_empty() || points.len() > 64 || points.len() % 2 == 1 {
        return Err(9);
    }
    let letters = numbers(points)
        .into_iter()
        .map(|point| letter_spelled(grammar, point));
    letters.collect::<Option<Vec<u8>>>().ok_or(23)
}

/// The reply number of the image check.
pub fn check_reply(known: &Known) -> u64 {
    match known {
        Ok(_) => 1,
        Err(k) => refused(*k),
    }
}

/// Seals an image and replies by number.
pub fn seal_reply(bytes: &mut [u8]) -> u64 {
    match image::seal(bytes) {
        Ok(()) => 1,
        Err(k) => refused(k),
    }
}

/// The reply number of the judge.
pub fn judge_reply(known: &Known, path: &[u8], pairing: &[u8]) -> u64 {
    match judge(known, path, pairing) {
        Ok(holds) => u64::from(holds),
        Err(k) => refused(k),
    }
}

/// The reply number of the judge of rules.
pub fn judge_rules_reply(known: &Known, pairing: &[u8], text: &[u8]) -> u64 {
    match judge_rules(known, pairing, text) {
        Ok(holds) => u64::from(holds),
        Err(k) => refused(k),
    }
}

/// Copies a form to the front of the letters lent, where it fits, and replies by number.
pub fn form_reply(known: &Known, entry: usize, letters: &mut [u8]) -> u64 {
    match form(known, entry) {
        Ok(form) if form.len() <= letters.len() => {
            letters[..form.len()].copy_from_slice(form);
            4 * form.len() as u64 + 1
        }
        Ok(form) => 4 * form.len() as u64 + 2,
        Err(k) => refused(k),
    }
}

/// Writes the word that code points spell to the front of the letters lent, where it fits, and replies by number.
pub fn spell_reply(known: &Known, points: &[u8], letters: &mut [u8]) -> u64 {
    match spell(known, points) {
        Ok(word) if word.len() <= letters.len() => {
            letters[..word.len()].copy_from_slice(&word);
            4 * word.len() as u64 + 1
        }
        Ok(_) => refused(24),
        Err(k) => refused(k),
    }
}
