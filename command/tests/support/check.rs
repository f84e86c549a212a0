//! Document 01's image check, tests 1 to 8, and then 14, the sets and form 2, which document 02 adds, written from their text.

const BLOCK: usize = 512;

/// The number of the first test that an image fails; none where it is accepted.
pub fn refusal(image: &[u8]) -> Option<u8> {
    type Test = fn(&[u8]) -> bool;
    let tests: [(u8, Test); 9] = [
        (1, right_length),
        (2, right_checks),
        (3, right_layout),
        (4, right_letters),
        (5, right_pairs),
        (6, right_tables),
        (7, right_columns),
        (8, right_lexicons),
        (14, right_form_letters),
    ];
    tests.into_iter().find(|(_, test)| !test(image)).map(|(number, _)| number)
}

/// Writes number and check into every block.
pub fn seal(image: &mut [u8]) {
    for (number, block) in image.chunks_mut(BLOCK).enumerate() {
        block[0] = (number % 256) as u8;
        block[1] = (number / 256) as u8;
        let check = check_of(block);
        block[510] = (check % 256) as u8;
        block[511] = (check / 256) as u8;
    }
}

fn check_of(block: &[u8]) -> usize {
    let sum: usize = (0..510).map(|i| (i + 1) * block[i] as usize).sum();
    (1 + sum) % 65_521
}

fn two(bytes: &[u8], at: usize) -> usize {
    bytes[at] as usize + 256 * bytes[at + 1] as usize
}

pub struct Counts {
    pub form: usize,
    pub letters: usize,
    pub pairs: usize,
    pub rules: usize,
    pub lexicons: usize,
    pub entries: usize,
    pub sets: usize,
}

pub fn counts(image: &[u8]) -> Counts {
    let count = |k: usize| two(image, 4 + 2 * k);
    Counts {
        form: count(0),
        letters: count(1),
        pairs: count(2),
        rules: count(3),
        lexicons: count(4),
        entries: count(5),
        sets: count(6),
    }
}

// 1: length 0, over 65,536, or no multiple of 512.
fn right_length(image: &[u8]) -> bool {
    !image.is_empty() && image.len() <= 65_536 && image.len().is_multiple_of(BLOCK)
}

// 2: a check or block number is wrong.
fn right_checks(image: &[u8]) -> bool {
    let right = |(number, block): (usize, &[u8])| two(block, 0) == number && two(block, 510) == check_of(block);
    image.chunks(BLOCK).enumerate().all(right)
}

// 3: form, counts, block total, kinds, record counts or unused block bytes differ.
fn right_layout(image: &[u8]) -> bool {
    let c = counts(image);
    let within = (1..=2).contains(&c.form)
        && (2..=120).contains(&c.letters)
        && (1..=250).contains(&c.pairs)
        && c.rules <= 32
        && (1..=64).contains(&c.lexicons)
        && (1..=2_800).contains(&c.entries)
        && c.sets <= 31;
    if !within {
        return false;
    }
    // Kind, record count and record width of every block.
    let mut blocks = vec![(1, 1, 14), (2, c.letters, 2), (3, c.pairs, 2)];
    if c.sets > 0 {
        blocks.push((7, c.sets, 16));
    }
    blocks.extend(vec![(4, 1, 506); c.rules]);
    blocks.push((5, c.lexicons, 2));
    let (width, a_block) = entry_layout(c.form);
    let mut rest = c.entries;
    while rest > 0 {
        let here = rest.min(a_block);
        blocks.push((6, here, width));
        rest -= here;
    }
    image.len() == BLOCK * blocks.len()
        && image.chunks(BLOCK).zip(blocks).all(|(block, (kind, records, width))| {
            block[2] as usize == kind
                && block[3] as usize == records
                && block[4 + records * width..510].iter().all(|&byte| byte == 0)
        })
}

// 4: a code point is 0, 55296-57343, or repeated.
fn right_letters(image: &[u8]) -> bool {
    let points: Vec<usize> = (0..counts(image).letters).map(|k| two(image, BLOCK + 4 + 2 * k)).collect();
    points
        .iter()
        .enumerate()
        .all(|(k, point)| *point != 0 && !(55_296..=57_343).contains(point) && !points[..k].contains(point))
}

pub fn pairs(image: &[u8]) -> Vec<(u8, u8)> {
    let at = |k| 2 * BLOCK + 4 + 2 * k;
    (0..counts(image).pairs).map(|k| (image[at(k)], image[at(k) + 1])).collect()
}

// 5: a pair breaks its rule (sides 0 or 2-L, not both 0) or is repeated.
fn right_pairs(image: &[u8]) -> bool {
    let letters = counts(image).letters;
    let right_side = |side: u8| side == 0 || (2..=letters).contains(&(side as usize));
    let pairs = pairs(image);
    pairs.iter().enumerate().all(|(k, &(lexical, surface))| {
        right_side(lexical)
            && right_side(surface)
            && (lexical, surface) != (0, 0)
            && !pairs[..k].contains(&(lexical, surface))
    })
}

/// The letters of each set: bit b of byte j is letter 8j + b.
pub fn sets(image: &[u8]) -> Vec<Vec<u8>> {
    let block = &image[3 * BLOCK..];
    let has = |set: usize, letter: u8| block[4 + 16 * set + letter as usize / 8] >> (letter % 8) & 1 == 1;
    (0..counts(image).sets).map(|set| (0..128).filter(|&letter| has(set, letter)).collect()).collect()
}

/// The block of the first rule: the fourth, or the fifth where there are sets.
fn first_table(image: &[u8]) -> usize {
    if counts(image).sets > 0 {
        4
    } else {
        3
    }
}

/// The 506 bytes of each table.
pub fn tables(image: &[u8]) -> Vec<&[u8]> {
    let blocks = image.chunks(BLOCK).skip(first_table(image)).take(counts(image).rules);
    blocks.map(|block| &block[4..510]).collect()
}

fn columns(table: &[u8]) -> Vec<(u8, u8)> {
    (0..table[0] as usize).map(|k| (table[2 + 2 * k], table[3 + 2 * k])).collect()
}

// 6: C, S, a column side, mark or next state out of range, or a byte after a table's last row not 0; a bit above L, or a
// side that names a missing set.
fn right_tables(image: &[u8]) -> bool {
    let Counts { letters, sets: set_count, .. } = counts(image);
    let right_side = |side: usize| side <= letters || (128..128 + set_count).contains(&side) || side == 255;
    let right_sets = sets(image).iter().flatten().all(|&letter| letter as usize <= letters);
    right_sets
        && tables(image).into_iter().all(|table| {
            let (c, s) = (table[0] as usize, table[1] as usize);
            if !(1..=16).contains(&c) || !(1..=24).contains(&s) {
                return false;
            }
            let (sides, rest) = table[2..].split_at(2 * c);
            let (marks, rest) = rest.split_at(s);
            let (rows, unused) = rest.split_at(s * c);
            sides.iter().all(|&side| right_side(side as usize))
                && marks.iter().all(|&mark| mark <= 1)
                && rows.iter().all(|&next| next as usize <= s)
                && unused.iter().all(|&byte| byte == 0)
        })
}

// 7: for a listed or the boundary pair a rule has no matching column, or two narrowest.
fn right_columns(image: &[u8]) -> bool {
    let mut fed = pairs(image);
    fed.push((1, 1));
    let sets = sets(image);
    let side_matches = |asked: u8, side: u8| match asked {
        255 => true,
        128.. => sets[asked as usize - 128].contains(&side),
        _ => asked == side,
    };
    let matches = |column: (u8, u8), pair: (u8, u8)| side_matches(column.0, pair.0) && side_matches(column.1, pair.1);
    tables(image).into_iter().all(|table| {
        fed.iter().all(|&pair| {
            let matching = columns(table).into_iter().filter(|&column| matches(column, pair));
            let mut widths: Vec<usize> =
                matching.map(|column| fed.iter().filter(|&&other| matches(column, other)).count()).collect();
            widths.sort();
            match widths[..] {
                [] => false,
                [_] => true,
                [first, second, ..] => first < second,
            }
        })
    })
}

/// The bytes of an entry, and the entries of a block, by the form.
fn entry_layout(form: usize) -> (usize, usize) {
    match form {
        2 => (24, 21),
        _ => (16, 31),
    }
}

/// The 16 or 24 bytes of each entry.
pub fn entries(image: &[u8]) -> Vec<&[u8]> {
    let c = counts(image);
    let (width, a_block) = entry_layout(c.form);
    let blocks = image.chunks(BLOCK).skip(first_table(image) + c.rules + 1);
    blocks.flat_map(|block| block[4..4 + width * a_block].chunks(width)).take(c.entries).collect()
}

/// Whether the word may end after an entry of an image, and the lexicons that may follow it.
pub fn ways(image: &[u8], entry: &[u8]) -> (bool, Vec<usize>) {
    match (counts(image).form, entry[13]) {
        (1, 255) => (true, vec![]),
        (1, lexicon) => (false, vec![lexicon as usize]),
        (_, mark) => (mark == 1, (0..64).filter(|x| entry[16 + x / 8] >> (x % 8) & 1 == 1).collect()),
    }
}

pub fn lexicon_counts(image: &[u8]) -> Vec<usize> {
    let c = counts(image);
    (0..c.lexicons).map(|k| two(image, (first_table(image) + c.rules) * BLOCK + 4 + 2 * k)).collect()
}

// 8: lexicon counts don't add to E, or an entry breaks its layout.
fn right_lexicons(image: &[u8]) -> bool {
    let c = counts(image);
    lexicon_counts(image).iter().sum::<usize>() == c.entries
        && entries(image).into_iter().all(|entry| {
            let length = entry[0] as usize;
            length <= 12
                && entry[1..1 + length].iter().all(|&letter| (2..=c.letters).contains(&(letter as usize)))
                && entry[1 + length..13].iter().all(|&byte| byte == 0)
                && right_ways(image, entry)
        })
}

// A lexicon below X, or 255 for end; in form 2 a mark of 0 or 1 and bits for lexicons below X, and not neither.
fn right_ways(image: &[u8], entry: &[u8]) -> bool {
    let c = counts(image);
    let (end, lexicons) = ways(image, entry);
    (c.form == 1 || entry[13] <= 1)
        && lexicons.iter().all(|&lexicon| lexicon < c.lexicons)
        && (end || !lexicons.is_empty())
}

// 14: a form letter that is the lexical side of no pair.
fn right_form_letters(image: &[u8]) -> bool {
    let pairs = pairs(image);
    let is_lexical = |letter: &u8| pairs.iter().any(|(lexical, _)| lexical == letter);
    entries(image).into_iter().all(|entry| entry[1..1 + entry[0] as usize].iter().all(is_lexical))
}
