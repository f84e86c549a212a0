//! An image is damaged so that one known test is the first it fails, or several tests at once, or in ways that do no harm.

use crate::continuations::cut_to_fit;
use crate::grammars::lexical_letters;
use crate::prng::Prng;
use crate::set_damage;
use crate::sets::{disguise, MOST};
use crate::tables::{with_columns, Stock, Temper};
use crate::way_damage;
use other_engine::draft::{Draft, DraftEntry};
use other_engine::entries::{entries_in_block, entry_width};
use other_engine::grammar::{columns_taken, matches, ANY, BOUNDARY, END, NULL};
use other_engine::image::{block_check, seal, BLOCK};

/// A damaged image, and the refusal it is made for where that is certain; 0 is none.
pub struct Damaged {
    pub image: Vec<u8>,
    pub refusal: Option<u8>,
}

fn certain(image: Vec<u8>, refusal: u8) -> Damaged {
    Damaged {
        image,
        refusal: Some(refusal),
    }
}

/// Where things lie in the image of a draft.
pub(crate) struct Place {
    pub(crate) image_form: usize,
    pub(crate) letters: usize,
    pairs: usize,
    pub(crate) sets: usize,
    rules: usize,
    pub(crate) lexicons: usize,
    entries: usize,
    blocks: usize,
}

impl Place {
    fn of(draft: &Draft) -> Place {
        let mut place = Place {
            image_form: draft.image_form,
            letters: draft.letters.len(),
            pairs: draft.pairs.len(),
            sets: draft.sets.len(),
            rules: draft.tables.len(),
            lexicons: draft.lexicons.len(),
            entries: draft.entries().count(),
            blocks: 0,
        };
        place.blocks = place.lexicon_block() + 1 + place.entries.div_ceil(place.in_block());
        place
    }

    /// The entries of a full block.
    fn in_block(&self) -> usize {
        entries_in_block(self.image_form)
    }

    /// The first rule's block, or as many blocks as stand ahead of it.
    fn first_rule(&self) -> usize {
        3 + usize::from(self.sets > 0)
    }

    fn lexicon_block(&self) -> usize {
        self.first_rule() + self.rules
    }

    fn letter(&self, number: usize) -> usize {
        BLOCK + 4 + 2 * number
    }

    fn pair(&self, number: usize) -> usize {
        2 * BLOCK + 4 + 2 * number
    }

    pub(crate) fn set(&self, number: usize) -> usize {
        3 * BLOCK + 4 + 16 * number
    }

    fn table(&self, rule: usize) -> usize {
        (self.first_rule() + rule) * BLOCK + 4
    }

    fn lexicon(&self, number: usize) -> usize {
        self.lexicon_block() * BLOCK + 4 + 2 * number
    }

    fn entry(&self, number: usize) -> usize {
        let (width, in_block) = (entry_width(self.image_form), self.in_block());
        (self.lexicon_block() + 1 + number / in_block) * BLOCK + 4 + width * (number % in_block)
    }

    /// The bytes of a block before its unused ones.
    fn used(&self, block: usize) -> usize {
        4 + match block {
            0 => 14,
            1 => 2 * self.letters,
            2 => 2 * self.pairs,
            _ if block < self.first_rule() => 16 * self.sets,
            _ if block < self.lexicon_block() => 506,
            _ if block == self.lexicon_block() => 2 * self.lexicons,
            _ => {
                let ahead = self.in_block() * (block - self.lexicon_block() - 1);
                entry_width(self.image_form) * (self.entries - ahead).min(self.in_block())
            }
        }
    }

    /// A block, often one ahead of the rules.
    fn some_block(&self, prng: &mut Prng) -> usize {
        if prng.percent(25) {
            prng.below(self.first_rule())
        } else {
            prng.below(self.blocks)
        }
    }
}

pub(crate) fn put(image: &mut [u8], at: usize, number: usize) {
    image[at..at + 2].copy_from_slice(&(number as u16).to_le_bytes());
}

pub(crate) fn get(image: &[u8], at: usize) -> usize {
    usize::from(u16::from_le_bytes([image[at], image[at + 1]]))
}

pub(crate) fn resealed(mut image: Vec<u8>) -> Vec<u8> {
    // An image too long to be sealed is refused for that alone.
    let _ = seal(&mut image);
    image
}

fn recheck(image: &mut [u8], block: usize) {
    let at = block * BLOCK;
    let check = block_check(&image[at..at + BLOCK]);
    put(image, at + 510, usize::from(check));
}

/// A byte unlike the one there.
fn other_byte(prng: &mut Prng, byte: u8) -> u8 {
    byte.wrapping_add(prng.between(1, 255) as u8)
}

/// An image damaged for refusal k, or with k = 0 changed harmlessly.
pub fn damaged(prng: &mut Prng, draft: &Draft, k: u8) -> Damaged {
    match k {
        0 => harmless(prng, draft),
        1 => length(prng, draft),
        2 => check_or_number(prng, draft),
        3 => plan(prng, draft),
        7 => columns(prng, draft),
        14 => certain(unspelled(prng, draft).image(), 14),
        _ => {
            let draft = with_a_rule(draft);
            let mut image = draft.image();
            in_place(prng, &Place::of(&draft), &mut image, k);
            certain(resealed(image), k)
        }
    }
}

/// An image damaged for several tests at once.
pub fn damaged_often(prng: &mut Prng, draft: &Draft) -> Damaged {
    // Two tests or three, the later ones first, since those read what the earlier ones spoil.
    let mut tests = vec![3, 4, 5, 6, 7, 8, 14];
    prng.shuffle(&mut tests);
    tests.truncate(if prng.percent(75) { 2 } else { 3 });
    tests.sort_unstable();
    let mut draft = match tests.pop_if(|k| *k == 14) {
        Some(_) => with_a_rule(&unspelled(prng, draft)),
        None => with_a_rule(draft),
    };
    while draft.tables.len() < 3 {
        let table = draft.tables[0].clone();
        draft.tables.push(table);
    }
    cut_to_fit(&mut draft);
    let place = Place::of(&draft);
    let mut image = draft.image();
    for &k in tests.iter().rev() {
        in_place(prng, &place, &mut image, k);
    }
    let mut image = resealed(image);
    if prng.percent(15) {
        let at = prng.below(image.len());
        image[at] = other_byte(prng, image[at]);
    }
    if prng.percent(10) {
        image.push(0);
    }
    Damaged {
        image,
        refusal: None,
    }
}

/// The draft, with one plain rule where it has none.
fn with_a_rule(draft: &Draft) -> Draft {
    let mut draft = draft.clone();
    if draft.tables.is_empty() {
        draft.tables.push(other_engine::draft::DraftTable {
            columns: vec![(ANY, ANY)],
            finals: vec![1],
            rows: vec![vec![1]],
        });
        cut_to_fit(&mut draft);
    }
    draft
}

/// Damage for test 3 to 8 that leaves everything else where it is.
fn in_place(prng: &mut Prng, place: &Place, image: &mut [u8], k: u8) {
    match k {
        3 => match prng.below(4) {
            0 => {
                let forms = [0, 3, 256, 257, 257, 258, 258, 513, 514, 65_535];
                put(image, 4, prng.one_of(&forms));
            }
            1 => {
                let at = place.some_block(prng) * BLOCK + 2;
                image[at] = other_kind(prng, image[at]);
            }
            2 => {
                let at = place.some_block(prng) * BLOCK + 3;
                image[at] = match prng.below(3) {
                    0 => image[at].wrapping_add(1),
                    1 => image[at].wrapping_sub(1),
                    _ => other_byte(prng, image[at]),
                };
            }
            _ => {
                // A block other than a rule's, whose table leaves no unused block bytes.
                let rest = place.blocks - place.rules;
                let drawn = prng.below(rest);
                let block = if drawn < place.first_rule() {
                    drawn
                } else {
                    drawn + place.rules
                };
                let first = place.used(block);
                let at = match prng.below(3) {
                    0 => first,
                    1 => 509,
                    _ => prng.between(first, 509),
                };
                image[block * BLOCK + at] = prng.between(1, 255) as u8;
            }
        },
        4 => {
            let number = prng.below(place.letters);
            let point = match prng.below(5) {
                0 => 0,
                1 => 55_296,
                2 => 57_343,
                3 => prng.between(55_296, 57_343),
                _ => {
                    let other = (number + prng.between(1, place.letters - 1)) % place.letters;
                    get(image, place.letter(other))
                }
            };
            put(image, place.letter(number), point);
        }
        5 => {
            let at = place.pair(prng.below(place.pairs));
            let past = (place.letters + 1) as u8;
            match prng.below(6) {
                0 => image[at + prng.below(2)] = 1,
                1 => image[at..at + 2].fill(0),
                2 => image[at + prng.below(2)] = past,
                3 => image[at + prng.below(2)] = prng.between(usize::from(past), 255) as u8,
                4 => image[at..at + 2].fill(1),
                _ if place.pairs > 1 => {
                    let number = (at - place.pair(0)) / 2;
                    let other = (number + prng.between(1, place.pairs - 1)) % place.pairs;
                    let from = place.pair(other);
                    image.copy_within(from..from + 2, at);
                }
                _ => image[at + prng.below(2)] = 255,
            }
        }
        6 if place.sets > 0 && prng.percent(25) => set_damage::bit_above(prng, place, image),
        6 => table_field(prng, place, image),
        7 => {
            // The last column becomes like the first, or matches nothing.
            let at = place.table(prng.below(place.rules));
            let columns = usize::from(image[at]).max(1);
            let last = at + 2 * columns;
            if columns > 1 && prng.percent(60) {
                image.copy_within(at + 2..at + 4, last);
            } else {
                image[last..last + 2].fill(0);
            }
        }
        _ => lexicon(prng, place, image),
    }
}

fn other_kind(prng: &mut Prng, kind: u8) -> u8 {
    match prng.below(3) {
        0 => kind.wrapping_add(1),
        1 => kind.wrapping_sub(1),
        _ => other_byte(prng, kind),
    }
}

/// Damage to one field of one table.
fn table_field(prng: &mut Prng, place: &Place, image: &mut [u8]) {
    let at = place.table(prng.below(place.rules));
    let columns = usize::from(image[at]);
    let states = usize::from(image[at + 1]);
    let marks = at + 2 + 2 * columns;
    let rows = marks + states;
    let rest = rows + states * columns;
    let end = at + 506;
    match prng.below(9) {
        0 => image[at] = prng.one_of(&[0, 17, 18, 255]),
        1 => image[at + 1] = prng.one_of(&[0, 25, 26, 255]),
        2 | 3 => {
            let side = prng.between(at + 2, marks - 1);
            image[side] = set_damage::wrong_side(prng, place);
        }
        4 => {
            let mark = prng.between(marks, rows - 1);
            image[mark] = if prng.percent(50) {
                2
            } else {
                prng.between(2, 255) as u8
            };
        }
        5 | 6 => {
            let next = prng.between(rows, rest - 1);
            let past = states + 1;
            image[next] = if prng.percent(60) {
                past as u8
            } else {
                prng.between(past, 255) as u8
            };
        }
        _ => {
            let after = match prng.below(3) {
                0 => rest,
                1 => end - 1,
                _ => prng.between(rest, end - 1),
            };
            image[after] = if prng.percent(50) {
                1
            } else {
                prng.between(1, 255) as u8
            };
        }
    }
}

/// Damage to the lexicon counts or to one entry.
fn lexicon(prng: &mut Prng, place: &Place, image: &mut [u8]) {
    let at = place.entry(prng.below(place.entries));
    let length = usize::from(image[at]).min(12);
    if place.image_form == 2 && prng.percent(40) {
        return way_damage::ways(prng, place, image, at);
    }
    match prng.below(9) {
        0 | 1 => {
            let at = place.lexicon(prng.below(place.lexicons));
            let count = get(image, at);
            let count = match prng.below(4) {
                0 => count.wrapping_sub(1),
                1 => count + 256,
                2 => count + 32_768,
                _ => count + 1,
            };
            put(image, at, count);
        }
        2 if place.lexicons > 1 => {
            // The sum is E again when its carry is lost.
            for number in [0, place.lexicons - 1] {
                let at = place.lexicon(number);
                put(image, at, get(image, at) + 32_768);
            }
        }
        3 => {
            // With twelve letters behind it a length of 13 breaks nothing but its own limit, or test 14 as well.
            if prng.percent(60) {
                image[at + 1..at + 13].fill(2);
            }
            image[at] = prng.one_of(&[13, 13, 14, 16, 255]);
        }
        4 if length > 0 => {
            let letter = prng.between(at + 1, at + length);
            let past = (place.letters + 1) as u8;
            image[letter] = match prng.below(5) {
                0 => 0,
                1 => 1,
                2 => past,
                3 => 255,
                _ => prng.between(usize::from(past), 255) as u8,
            };
        }
        5 if length < 12 => image[at] += 1,
        6 if length > 0 => image[at] -= 1,
        7 if length < 12 => {
            let letter = prng.between(at + 1 + length, at + 12);
            image[letter] = if prng.percent(50) {
                2
            } else {
                prng.between(1, 255) as u8
            };
        }
        _ => way_damage::ways(prng, place, image, at),
    }
}

/// Lengths that no image has.
fn length(prng: &mut Prng, draft: &Draft) -> Damaged {
    let mut image = draft.image();
    let whole = image.len();
    let length = match prng.below(12) {
        0 => 0,
        1 => 1,
        2 => 511,
        3 => 513,
        4 => whole - 1,
        5 => whole + 1,
        6 => whole - 511,
        7 => whole + 511,
        8 => 65_536 + 512,
        9 => 65_537,
        10 => 65_535,
        _ => prng.below(whole / 512) * 512 + prng.between(1, 511),
    };
    if prng.percent(40) {
        // The longer image goes on with sealed blocks.
        image.resize(128 * BLOCK, 0);
        let _ = seal(&mut image);
        image.resize(129 * BLOCK, 0);
        put(&mut image, 128 * BLOCK, 128);
        recheck(&mut image, 128);
        if length > image.len() {
            image.resize(length, 0);
        }
        image.truncate(length);
    } else {
        image.resize(length, 0);
    }
    certain(image, 1)
}

/// A wrong check, or a wrong number under a right check.
fn check_or_number(prng: &mut Prng, draft: &Draft) -> Damaged {
    let mut image = draft.image();
    let blocks = image.len() / BLOCK;
    let block = prng.below(blocks);
    let at = block * BLOCK;
    match prng.below(8) {
        0 => {
            let byte = prng.between(at, at + 511);
            image[byte] = other_byte(prng, image[byte]);
        }
        1 => image[at + 7] = other_byte(prng, image[at + 7]),
        2 => put(&mut image, at, block + prng.between(1, 255)),
        3 => {
            put(&mut image, at, block + 256 * prng.between(1, 255));
            recheck(&mut image, block);
        }
        4 => {
            let number = if prng.percent(50) {
                block + 1
            } else {
                block.wrapping_sub(1)
            };
            put(&mut image, at, number);
            recheck(&mut image, block);
        }
        5 => {
            let check = get(&image, at + 510);
            let wrong = if prng.percent(50) {
                check + 1
            } else {
                check.wrapping_sub(1)
            };
            put(&mut image, at + 510, wrong);
        }
        6 => {
            // Two blocks change places, numbers and checks with them.
            let other = (block + prng.between(1, blocks - 1)) % blocks;
            for byte in 0..BLOCK {
                image.swap(at + byte, other * BLOCK + byte);
            }
        }
        _ => return past_modulus(prng, draft, true),
    }
    certain(image, 2)
}

/// An image with a check below 15, as it should be or written 65,521 higher.
fn past_modulus(prng: &mut Prng, draft: &Draft, higher: bool) -> Damaged {
    let mut draft = draft.clone();
    let in_block = entries_in_block(draft.image_form);
    while draft.entries().count() < in_block {
        let filler = DraftEntry::with_one_way(
            lexical_letters(&draft.pairs).into_iter().take(1).collect(),
            END,
            0,
        );
        draft.lexicons.last_mut().expect("a lexicon").push(filler);
    }
    let mut image = draft.image();
    let place = Place::of(&draft);
    let gloss = place.entry(in_block - 1) + 14;
    let block = gloss / BLOCK;
    let start = prng.below(65_536);
    for step in 0..65_536 {
        put(&mut image, gloss, (start + step) % 65_536);
        let check = usize::from(block_check(&image[block * BLOCK..(block + 1) * BLOCK]));
        if check < 15 {
            put(
                &mut image,
                block * BLOCK + 510,
                check + if higher { 65_521 } else { 0 },
            );
            return certain(image, if higher { 2 } else { 0 });
        }
    }
    Damaged {
        image,
        refusal: None,
    }
}

/// Counts and blocks that differ from the layout.
fn plan(prng: &mut Prng, draft: &Draft) -> Damaged {
    let place = Place::of(draft);
    let mut image = draft.image();
    match prng.below(13) {
        0..=2 => {
            let with_rule = with_a_rule(draft);
            let mut image = with_rule.image();
            in_place(prng, &Place::of(&with_rule), &mut image, 3);
            return certain(resealed(image), 3);
        }
        3 => {
            let limits = [
                (6, 120),
                (8, 250),
                (10, 32),
                (12, 64),
                (14, 2_800),
                (16, MOST),
            ];
            let (at, limit) = prng.one_of(&limits);
            let old = get(&image, at);
            let new = match prng.below(6) {
                0 => 0,
                1 => limit + 1,
                2 => old + 1,
                3 => old.wrapping_sub(1) % 65_536,
                4 => old + 256,
                _ => prng.below(65_536),
            };
            put(&mut image, at, if new == old { old + 1 } else { new });
        }
        4 | 5 => return past_limit(prng, draft),
        6 => {
            let block = prng.below(place.blocks);
            image.drain(block * BLOCK..(block + 1) * BLOCK);
        }
        7 => {
            if place.blocks == 128 {
                image.truncate(127 * BLOCK);
            } else {
                match prng.below(3) {
                    0 => image.resize((place.blocks + 1) * BLOCK, 0),
                    1 => image.resize(128 * BLOCK, 0),
                    _ => {
                        let block = prng.below(place.blocks);
                        let copy = image[block * BLOCK..(block + 1) * BLOCK].to_vec();
                        let at = prng.between(block, place.blocks) * BLOCK;
                        image.splice(at..at, copy);
                    }
                }
            }
        }
        8..=10 => return certain(set_damage::layout(prng, draft), 3),
        11 => return way_damage::other_form(prng, draft),
        _ => {
            // Two blocks of unlike kinds change places under right numbers.
            let block = prng.below(place.first_rule());
            let other = prng.between(block + 1, place.blocks - 1);
            for byte in 0..BLOCK {
                image.swap(block * BLOCK + byte, other * BLOCK + byte);
            }
        }
    }
    certain(resealed(image), 3)
}

/// A draft laid out right with one count just outside its limits.
fn past_limit(prng: &mut Prng, draft: &Draft) -> Damaged {
    let mut draft = draft.clone();
    let entry = DraftEntry::with_one_way(Vec::new(), END, 0);
    let last = draft.lexicons.len() - 1;
    match prng.below(10) {
        0 => draft.letters.truncate(1),
        1 => draft.letters = (1..=121).collect(),
        2 => draft.pairs.clear(),
        3 => draft.pairs = (2..=252).map(|x| (x, 2)).collect(),
        4 => {
            let table = with_a_rule(&draft).tables[0].clone();
            draft.tables.resize(33, table);
        }
        5 => draft.lexicons.clear(),
        6 => draft.lexicons.resize(65, Vec::new()),
        7 => draft.lexicons.iter_mut().for_each(Vec::clear),
        8 => {
            // In form 2 so many entries would be refused for the image's length.
            draft.image_form = 1;
            let missing = 2_801usize.saturating_sub(draft.entries().count()).max(1);
            let longer = draft.lexicons[last].len() + missing;
            draft.lexicons[last].resize(longer, entry);
        }
        _ => {
            // The block total is at its limit and E past its own.
            draft.image_form = 1;
            let table = with_a_rule(&draft).tables[0].clone();
            draft.tables.resize(32, table);
            let rest = draft.entries().count() - draft.lexicons[last].len();
            draft.lexicons[last].resize(2_822 - rest, entry);
        }
    }
    // A block too many would be refused for its length.
    if Place::of(&draft).blocks > 128 {
        draft.sets.clear();
        if draft.image_form == 2 {
            cut_to_fit(&mut draft);
        }
    }
    certain(draft.image(), 3)
}

/// A rule without a column for some pair, or with two narrowest.
fn columns(prng: &mut Prng, draft: &Draft) -> Damaged {
    let mut draft = with_a_rule(draft);
    let rule = prng.below(draft.tables.len());
    let old = draft.tables[rule].columns.clone();
    let pairs = draft.pairs.clone();
    let mut certainly = true;
    let new = match prng.below(9) {
        0 => {
            let victim = prng.one_of(&pairs);
            old.into_iter()
                .filter(|&column| !matches(&draft.sets, column, victim))
                .collect()
        }
        1 => old
            .into_iter()
            .filter(|&column| !matches(&draft.sets, column, (BOUNDARY, BOUNDARY)))
            .collect(),
        2 => {
            let mut new = old;
            if new.len() == 16 {
                let last = prng.below(16);
                new.remove(last);
            }
            match columns_taken(&draft.sets, &new, &pairs) {
                Some(taken) => {
                    let twin = new[prng.one_of(&taken)];
                    new.insert(prng.below(new.len() + 1), twin);
                }
                // The column taken away was the only one for some pair.
                None => certainly = true,
            }
            new
        }
        3 => {
            let (x, y) = prng.one_of(&pairs);
            certainly = false;
            let mut new = vec![(x, ANY), (ANY, y), (ANY, ANY)];
            prng.shuffle(&mut new);
            new
        }
        4 => {
            let mut new = vec![(BOUNDARY, ANY), (ANY, BOUNDARY), (ANY, ANY)];
            if prng.percent(50) {
                new.push((BOUNDARY, BOUNDARY));
            }
            prng.shuffle(&mut new);
            new
        }
        5..=7 => set_damage::columns(prng, &mut draft, &old),
        _ => pairs.iter().take(16).copied().collect(),
    };
    let new: Vec<(u8, u8)> = if new.is_empty() { vec![(0, 0)] } else { new };
    let states = draft.tables[rule].finals.len();
    let temper = Temper {
        failing: 10,
        finals: 80,
        staying: 30,
    };
    let stock = Stock {
        letters: draft.letters.len(),
        pairs: &draft.pairs,
        sets: &draft.sets,
    };
    draft.tables[rule] = with_columns(prng, &stock, new, states, &temper);
    let refusal = certainly.then_some(7);
    Damaged {
        image: draft.image(),
        refusal,
    }
}

/// The draft with a letter in one form, or in several, that is the lexical side of no pair.
fn unspelled(prng: &mut Prng, draft: &Draft) -> Draft {
    let mut draft = draft.clone();
    let letter = unpaired(prng, &mut draft);
    let lexical = lexical_letters(&draft.pairs);
    // Mostly the letter stands at one place alone.
    if prng.percent(80) {
        for entry in draft.lexicons.iter_mut().flatten() {
            if lexical.is_empty() {
                entry.form.clear();
            }
            for other in &mut entry.form {
                if !lexical.contains(other) {
                    *other = prng.one_of(&lexical);
                }
            }
        }
    }
    let number = some_entry(prng, &draft);
    let mut entries = draft.lexicons.iter_mut().flatten();
    let form = &mut entries.nth(number).expect("an entry").form;
    if prng.percent(15) {
        let filler = lexical.first().copied().unwrap_or(letter);
        form.resize(12, filler);
    }
    let length = form.len();
    match prng.below(4) {
        0 if length < 12 => form.insert(prng.below(length + 1), letter),
        1 if length > 0 => form[length - 1] = letter,
        _ if length > 0 => form[prng.below(length)] = letter,
        _ => form.push(letter),
    }
    // A rule that the changed pairs do not fit would be refused first.
    let (sets, pairs) = (&draft.sets, &draft.pairs);
    draft
        .tables
        .retain(|table| columns_taken(sets, &table.columns, pairs).is_some());
    draft
}

/// A letter that is the lexical side of no pair: one of those there are, a new one, or one whose pairs are taken away.
fn unpaired(prng: &mut Prng, draft: &mut Draft) -> u8 {
    let last = draft.letters.len() as u8;
    let lexical = lexical_letters(&draft.pairs);
    let others: Vec<u8> = (2..=last).filter(|x| !lexical.contains(x)).collect();
    let letter = if !others.is_empty() && prng.percent(50) {
        prng.one_of(&others)
    } else if last < 120 && prng.percent(50) {
        let point = (1..).find(|point| !draft.letters.contains(point));
        draft.letters.extend(point);
        last + 1
    } else {
        let any = prng.between(2, usize::from(last)) as u8;
        prng.one_of(&[any, last])
    };
    let pairs = &mut draft.pairs;
    pairs.retain(|pair| pair.0 != letter);
    let lexical = lexical_letters(pairs);
    // It is in no pair at all, only inserted, written for another letter, or as it was.
    let manner = prng.below(4);
    if manner < 2 {
        pairs.retain(|pair| pair.1 != letter);
    }
    let another = match manner {
        1 => Some((NULL, letter)),
        2 if !lexical.is_empty() => Some((prng.one_of(&lexical), letter)),
        _ => None,
    };
    if let Some(pair) = another {
        if pairs.len() < 250 && !pairs.contains(&pair) {
            pairs.insert(prng.below(pairs.len() + 1), pair);
        }
    }
    if pairs.is_empty() {
        pairs.push((NULL, letter));
    }
    letter
}

/// The number of an entry, often of the last one or of one at the edge of a block.
fn some_entry(prng: &mut Prng, draft: &Draft) -> usize {
    let last = draft.entries().count() - 1;
    let in_block = entries_in_block(draft.image_form);
    match prng.below(4) {
        0 => last,
        1 => (in_block * prng.between(1, 1 + last / in_block) - prng.below(2)).min(last),
        _ => prng.between(0, last),
    }
}

/// Changes at the edge of what is refused, none of them over it.
fn harmless(prng: &mut Prng, draft: &Draft) -> Damaged {
    let mut draft = draft.clone();
    match prng.below(10) {
        0 => {
            let number = prng.below(draft.letters.len());
            let point = prng.one_of(&[1, 55_295, 57_344, 65_535]);
            if !draft.letters.contains(&point) {
                draft.letters[number] = point;
            }
        }
        1 => {
            let number = prng.below(draft.lexicons.len());
            for entry in &mut draft.lexicons[number] {
                entry.gloss = prng.one_of(&[0, 65_535, 255, 256]);
            }
        }
        2 => {
            // The same entries, dealt out among the lexicons another way.
            let all: Vec<DraftEntry> = draft.entries().cloned().collect();
            let count = draft.lexicons.len();
            let mut cuts: Vec<usize> = (1..count)
                .map(|_| prng.below(all.len() + 1))
                .chain([0, all.len()])
                .collect();
            cuts.sort_unstable();
            draft.lexicons = cuts
                .windows(2)
                .map(|cut| all[cut[0]..cut[1]].to_vec())
                .collect();
        }
        3 => {
            let last = draft.lexicons.len() - 1;
            if draft.lexicons.len() < 64 {
                let number = prng.below(draft.lexicons.len());
                if let Some(entry) = draft.lexicons[number].first_mut() {
                    entry.go_on_to(last as u8);
                }
            }
        }
        4 => {
            let mut image = draft.image();
            let _ = seal(&mut image);
            return certain(image, 0);
        }
        5 => disguise(prng, &mut draft),
        6 if draft.sets.len() < MOST => {
            // A set more, that no side names.
            let last = draft.letters.len() as u8;
            let set = (0..=last).filter(|&x| x == last || prng.percent(50));
            draft.sets.push(set.collect());
        }
        7 | 8 => way_damage::at_the_edge(prng, &mut draft),
        _ if draft.entries().count() < 2_000 => return past_modulus(prng, &draft, false),
        _ => {}
    }
    cut_to_fit(&mut draft);
    certain(draft.image(), 0)
}

#[cfg(test)]
mod tests {
    use super::unspelled;
    use crate::grammars::{grammar, lexical_letters};
    use crate::prng::Prng;
    use other_engine::entries::entries_in_block;
    use other_engine::grammar::NULL;
    use other_engine::image::read;

    #[test]
    fn a_letter_without_pair_is_met_in_every_way() {
        let mut prng = Prng::new(1);
        let mut met = [0; 10];
        for _ in 0..600 {
            let draft = grammar(&mut prng);
            let draft = unspelled(&mut prng, &draft);
            assert_eq!(read(&draft.image()).err(), Some(14));
            let lexical = lexical_letters(&draft.pairs);
            let mut places = Vec::new();
            for (number, entry) in draft.entries().enumerate() {
                for (place, letter) in entry.form.iter().enumerate() {
                    if !lexical.contains(letter) {
                        places.push((number, place, entry.form.len(), *letter));
                    }
                }
            }
            let [(number, place, length, letter)] = places[..] else {
                // Several at once are a way too.
                met[0] += 1;
                continue;
            };
            let entries = draft.entries().count();
            let written = |inserted: bool| {
                let mut pairs = draft.pairs.iter();
                pairs.any(|pair| pair.1 == letter && inserted == (pair.0 == NULL))
            };
            let ways = [
                number == 0 && entries > 1,
                number + 1 == entries && entries > 1,
                number >= entries_in_block(draft.image_form),
                place == 0 && length > 1,
                place + 1 == length && length > 1,
                place == 11,
                written(true) && !written(false),
                written(false) && !written(true),
                !written(true) && !written(false),
            ];
            for (count, way) in met[1..].iter_mut().zip(ways) {
                *count += usize::from(way);
            }
        }
        assert!(met.iter().all(|&count| count > 5), "{met:?}");
    }
}
