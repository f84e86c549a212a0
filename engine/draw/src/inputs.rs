//! Words, paths, pairings and lengths are drawn around what a grammar does read, and at the limits.

use crate::prng::Prng;
use other_engine::calls::{self, Known};
use other_engine::grammar::{Grammar, NULL};
use other_engine::listing::ROW;
use other_engine::pairings::UNITS;
use other_engine::{Entry, Reading};

/// What is known of a grammar that words and paths can be drawn from.
pub struct Pool {
    pub paths: Vec<Vec<u16>>,
    pub readings: Vec<Reading>,
}

/// A path as bytes.
pub fn path_bytes(path: &[u16]) -> Vec<u8> {
    path.iter().flat_map(|entry| entry.to_le_bytes()).collect()
}

/// An entry of one of some lexicons, often its last, if there is any.
fn one_entry(prng: &mut Prng, grammar: &Grammar, lexicons: &[u8]) -> Option<usize> {
    let ranges = lexicons.iter().map(|&x| grammar.lexicon(usize::from(x)));
    let mut ranges: Vec<_> = ranges.filter(|range| !range.is_empty()).collect();
    prng.shuffle(&mut ranges);
    let lexicon = ranges.pop()?;
    Some(if prng.percent(20) {
        lexicon.end - 1
    } else {
        prng.between(lexicon.start, lexicon.end - 1)
    })
}

/// A walk through the lexicons, and whether it ended; one that dawdles ends late.
fn walk(prng: &mut Prng, grammar: &Grammar, most: usize, dawdles: bool) -> (Vec<u16>, bool) {
    let mut path = Vec::new();
    let mut lexicons = &[0][..];
    while path.len() < most {
        let Some(mut number) = one_entry(prng, grammar, lexicons) else {
            break;
        };
        let late = path.len() + 1 >= most;
        for _ in 0..6 {
            let Entry {
                ends, lexicons: on, ..
            } = &grammar.entries[number];
            let unfit = match dawdles {
                true if late => !ends,
                true => on.is_empty(),
                false => path.len() > 8 && !ends,
            };
            if unfit {
                number = one_entry(prng, grammar, lexicons).unwrap_or(number);
            }
        }
        path.push(number as u16);
        let entry = &grammar.entries[number];
        let stops = entry.lexicons.is_empty() || late || !dawdles && prng.percent(50);
        if entry.ends && stops {
            return (path, true);
        }
        lexicons = &entry.lexicons;
    }
    (path, false)
}

/// A pairing of a path's letters with some insertions, drawn without asking the rules.
fn sample(prng: &mut Prng, grammar: &Grammar, path: &[u16]) -> Vec<u8> {
    let numbered = || grammar.pairs.iter().enumerate();
    let mut pairing = Vec::new();
    for letter in grammar.joined(path) {
        // Never empty: test 14 has passed.
        let choices: Vec<u8> = numbered()
            .filter(|(_, p)| p.0 == letter)
            .map(|(n, _)| n as u8)
            .collect();
        pairing.push(prng.one_of(&choices));
    }
    let inserted: Vec<u8> = numbered()
        .filter(|(_, p)| p.0 == NULL)
        .map(|(n, _)| n as u8)
        .collect();
    if !inserted.is_empty() {
        let letters = grammar.spelled(&pairing).len();
        for _ in 0..insertions(prng, letters) {
            let pair = prng.one_of(&inserted);
            pairing.insert(prng.below(pairing.len() + 1), pair);
        }
    }
    pairing
}

/// How many insertions a sample of so many letters gets: few, or around the limit, or what brings it to about 32 letters.
fn insertions(prng: &mut Prng, letters: usize) -> usize {
    match prng.weighted(&[40, 25, 15, 20]) {
        0 => 0,
        1 => prng.between(1, 3),
        2 => prng.between(7, 9),
        _ => prng.between(31, 33).saturating_sub(letters).min(9),
    }
}

impl Pool {
    /// Complete paths of a grammar and some of their readings.
    pub fn of(prng: &mut Prng, known: &Known) -> Pool {
        let mut pool = Pool {
            paths: Vec::new(),
            readings: Vec::new(),
        };
        let Ok(grammar) = known else { return pool };
        for turn in 0..14 {
            let most = if turn < 3 { prng.between(14, 17) } else { 16 };
            let (path, ended) = walk(prng, grammar, most, turn < 3);
            if ended && path.len() <= 16 && !pool.paths.contains(&path) {
                pool.paths.push(path);
            }
        }
        let mut spent = 0;
        for path in &pool.paths {
            let work = grammar.pairing_work(&grammar.joined(path));
            if work > 20_000 || spent > 40_000 {
                continue;
            }
            spent += work;
            if let Ok(mut readings) = calls::generate(known, &path_bytes(path)) {
                prng.shuffle(&mut readings);
                readings.truncate(6);
                pool.readings.extend(readings);
            }
        }
        for _ in 0..10 {
            if pool.paths.is_empty() {
                break;
            }
            let path = pool.path(prng);
            let pairing = sample(prng, grammar, &path);
            if calls::judge(known, &path_bytes(&path), &pairing) == Ok(true) {
                pool.readings.push(Reading { path, pairing });
            }
        }
        pool
    }

    fn path(&self, prng: &mut Prng) -> Vec<u16> {
        if self.paths.is_empty() {
            return vec![0];
        }
        self.paths[prng.below(self.paths.len())].clone()
    }

    fn reading(&self, prng: &mut Prng) -> Option<Reading> {
        if self.readings.is_empty() {
            return None;
        }
        Some(self.readings[prng.below(self.readings.len())].clone())
    }

    fn sampled(&self, prng: &mut Prng, grammar: &Grammar) -> Option<Reading> {
        let path = self.path(prng);
        if !grammar.linked(&path) {
            return None;
        }
        let pairing = sample(prng, grammar, &path);
        Some(Reading { path, pairing })
    }

    /// A word for analysis.
    pub fn word(&self, prng: &mut Prng, grammar: &Grammar) -> Vec<u8> {
        let letters = grammar.letters.len();
        let short = prng.between(1, 6);
        match prng.weighted(&[34, 28, 10, 10, 3, 4, 4, 3]) {
            0 => {
                let reading = self.reading(prng);
                reading.map_or_else(
                    || random_word(prng, short, letters),
                    |r| grammar.spelled(&r.pairing),
                )
            }
            1 => {
                let reading = self.sampled(prng, grammar);
                reading.map_or_else(
                    || random_word(prng, short, letters),
                    |r| grammar.spelled(&r.pairing),
                )
            }
            2 => {
                // Only letters that some pair has on its surface side.
                let surface: Vec<u8> = grammar
                    .pairs
                    .iter()
                    .map(|p| p.1)
                    .filter(|&y| y != NULL)
                    .collect();
                if surface.is_empty() {
                    random_word(prng, short, letters)
                } else {
                    (0..short).map(|_| prng.one_of(&surface)).collect()
                }
            }
            3 => {
                let reading = self.reading(prng);
                let mut word = reading.map_or(vec![2, 2], |r| grammar.spelled(&r.pairing));
                change(prng, &mut word, letters);
                word
            }
            4 => {
                let length = prng.between(1, 32);
                random_word(prng, length, letters)
            }
            5 => {
                let length = prng.one_of(&[0, 0, 33, 33, 34, 40, 64, 255, 256, 300]);
                if prng.percent(50) {
                    random_word(prng, length, letters)
                } else {
                    prng.bytes(length)
                }
            }
            6 => {
                let reading = self.reading(prng);
                let mut word = reading.map_or(vec![2, 2], |r| grammar.spelled(&r.pairing));
                let past = letters as u8 + 1;
                let place = prng.below(word.len());
                word[place] = prng.one_of(&[0, 1, past, 255, 254]);
                word
            }
            _ => {
                let letter = prng.one_of(&[2, letters as u8]);
                let length = prng.one_of(&[1, 2, 31, 32]);
                vec![letter; length]
            }
        }
    }

    /// A path for generation or the judge, as bytes.
    pub fn path_given(&self, prng: &mut Prng, grammar: &Grammar) -> Vec<u8> {
        let entries = grammar.entries.len();
        match prng.weighted(&[72, 10, 5, 5, 4, 4]) {
            0 => {
                // A path whose pairings can be listed, if one of a few is.
                let mut path = self.path(prng);
                for _ in 0..4 {
                    let fits = !grammar.linked(&path)
                        || grammar.pairing_work(&grammar.joined(&path)) <= UNITS;
                    if fits {
                        break;
                    }
                    path = self.path(prng);
                }
                path_bytes(&path)
            }
            1 => {
                let mut path = self.path(prng);
                let place = prng.below(path.len());
                let there = prng.below(entries);
                let entry = prng.one_of(&[there, entries, entries + 1, 65_535]) as u16;
                match prng.below(4) {
                    0 => path[place] = entry,
                    1 => drop(path.remove(place)),
                    2 => path.insert(place, entry),
                    _ => path.push(entry),
                }
                path_bytes(&path)
            }
            2 => {
                let length = prng.between(1, 4);
                let path: Vec<u16> = (0..length).map(|_| prng.below(entries) as u16).collect();
                path_bytes(&path)
            }
            3 => {
                let count = prng.one_of(&[0, 0, 1, 3, 31, 33, 34, 34, 35, 36, 64]);
                let mut bytes = path_bytes(&walk(prng, grammar, 20, true).0);
                bytes.resize(count, 0);
                bytes
            }
            4 => {
                let most = prng.one_of(&[15, 16, 17, 17, 18]);
                path_bytes(&walk(prng, grammar, most, true).0)
            }
            _ => {
                let mut bytes = path_bytes(&self.path(prng));
                match prng.below(3) {
                    0 => drop(bytes.pop()),
                    1 => bytes.push(0),
                    _ => bytes.extend([255, 255]),
                }
                bytes
            }
        }
    }

    /// A path and a pairing for the judge, as bytes.
    pub fn judged(&self, prng: &mut Prng, grammar: &Grammar) -> (Vec<u8>, Vec<u8>) {
        let pairs = grammar.pairs.len();
        let drawn = match prng.below(5) {
            0 | 1 => self.reading(prng),
            _ => self.sampled(prng, grammar),
        };
        let Some(mut reading) = drawn else {
            let length = prng.between(1, 5);
            let pairing = (0..length).map(|_| prng.below(pairs) as u8).collect();
            return (self.path_given(prng, grammar), pairing);
        };
        match prng.weighted(&[55, 20, 8, 9, 8]) {
            0 => {}
            1 => {
                let pair = prng.below(pairs) as u8;
                if reading.pairing.is_empty() {
                    reading.pairing.push(pair);
                } else {
                    let place = prng.below(reading.pairing.len());
                    match prng.below(4) {
                        0 => reading.pairing[place] = pair,
                        1 => drop(reading.pairing.remove(place)),
                        2 => reading.pairing.insert(place, pair),
                        _ => reading.pairing.swap(place, 0),
                    }
                }
            }
            2 => reading.path = self.path(prng),
            3 => {
                let length = prng.one_of(&[0, 40, 40, 41, 42, 255, 256]);
                let filler = prng.below(pairs) as u8;
                reading.pairing.resize(length, filler);
            }
            _ => {
                let wrong = prng.one_of(&[pairs as u8, 255, 254, 251]);
                let place = prng.below(reading.pairing.len() + 1);
                reading.pairing.insert(place, wrong);
            }
        }
        let path = if prng.percent(12) {
            self.path_given(prng, grammar)
        } else {
            path_bytes(&reading.path)
        };
        (path, reading.pairing)
    }
}

fn random_word(prng: &mut Prng, length: usize, letters: usize) -> Vec<u8> {
    (0..length)
        .map(|_| prng.between(2, letters) as u8)
        .collect()
}

/// One letter more, less, other, or two changed over.
fn change(prng: &mut Prng, word: &mut Vec<u8>, letters: usize) {
    let letter = prng.between(2, letters) as u8;
    let place = prng.below(word.len());
    match prng.below(4) {
        0 => word[place] = letter,
        1 => word.insert(place, letter),
        2 if word.len() > 1 => drop(word.remove(place)),
        _ => word.swap(place, 0),
    }
}

/// The length of a buffer for so many readings.
pub fn room(prng: &mut Prng, readings: usize) -> usize {
    if readings > 400 && !prng.percent(3) {
        let rows = prng.below(6);
        return rows * ROW + prng.one_of(&[0, 1, 115]);
    }
    let rows = match prng.weighted(&[10, 10, 14, 34, 16, 16]) {
        0 => 0,
        1 => 1,
        2 => readings.saturating_sub(1),
        3 => readings,
        4 => readings + prng.between(1, 3),
        _ => prng.below(readings + 4),
    };
    rows * ROW + prng.one_of(&[0, 0, 0, 1, 115, 58])
}

/// A word for a refused image: of any bytes, or of the letter that every grammar has.
pub fn any_word(prng: &mut Prng) -> Vec<u8> {
    let length = prng.one_of(&[0, 1, 1, 2, 3, 5, 32, 33]);
    if prng.percent(50) {
        vec![2; length]
    } else {
        prng.bytes(length)
    }
}

/// The length of a buffer that nothing will be written in.
pub fn any_room(prng: &mut Prng) -> usize {
    prng.one_of(&[0, 1, 115, 116, 117, 231, 232, 233, 580])
}

/// An entry number, mostly of an entry there is.
pub fn entry(prng: &mut Prng, entries: usize) -> usize {
    let there = prng.below(entries.max(1));
    match prng.weighted(&[70, 6, 6, 6, 6, 6]) {
        0 => there,
        1 => entries,
        2 => entries + prng.below(100),
        3 => 65_536 + there,
        4 => (1 << 32) + there,
        _ => prng.one_of(&[65_535, 2_799, 2_800, usize::MAX, usize::MAX - 1, 1 << 63]),
    }
}
