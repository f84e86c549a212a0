//! Lines are drawn around words that have readings, and around each way a line can be unread.

use draw::inputs::{any_word, Pool};
use draw::prng::Prng;
use other_engine::calls::Known;
use other_engine::lines::LONGEST;

/// A word as the numbers of a line, now and then with noughts in front.
fn spelled(prng: &mut Prng, word: &[u8]) -> Vec<u8> {
    let padded = prng.percent(15);
    let texts: Vec<String> = word
        .iter()
        .map(|letter| {
            let width = if padded { prng.between(1, 3) } else { 1 };
            format!("{letter:0width$}")
        })
        .collect();
    texts.join(" ").into_bytes()
}

/// A word the grammar may know, or any short word where there is no grammar.
fn word(prng: &mut Prng, known: &Known, pool: &Pool) -> Vec<u8> {
    match known {
        Ok(grammar) => pool.word(prng, grammar),
        Err(_) => any_word(prng),
    }
}

/// A line of exactly so many bytes, at least one, that are all good numbers.
fn of_length(prng: &mut Prng, length: usize) -> Vec<u8> {
    let mut line = Vec::with_capacity(length);
    loop {
        let left = length - line.len();
        // A space may not come last, so a number takes the rest or leaves two bytes or more.
        let width = if left <= 3 {
            left
        } else {
            prng.between(1, 3.min(left - 2))
        };
        let most = [9, 99, 255][width - 1];
        let number = prng.between(0, most);
        line.extend(format!("{number:0width$}").bytes());
        if line.len() == length {
            return line;
        }
        line.push(b' ');
    }
}

/// Two to six good numbers, each with its own spelling, and one of them to be spoiled.
fn numbers(prng: &mut Prng) -> (Vec<String>, usize) {
    let count = prng.between(2, 6);
    let numbers = (0..count).map(|_| prng.below(256).to_string()).collect();
    (numbers, prng.below(count))
}

/// A way for a line to be unread.
type Spoiling = fn(&mut Prng) -> Vec<u8>;

/// The numbers with one of them written otherwise.
fn with_one(prng: &mut Prng, other: impl FnOnce(&mut Prng, &str) -> String) -> Vec<u8> {
    let (mut numbers, place) = numbers(prng);
    numbers[place] = other(prng, &numbers[place]);
    numbers.join(" ").into_bytes()
}

/// The numbers with one space replaced.
fn with_space(prng: &mut Prng, instead: &str) -> Vec<u8> {
    let (numbers, place) = numbers(prng);
    let before = numbers[..=place].join(" ");
    let after = numbers[place..].join(" ");
    format!("{before}{instead}{after}").into_bytes()
}

fn two_spaces(prng: &mut Prng) -> Vec<u8> {
    let instead = prng.one_of(&["  ", "   "]);
    with_space(prng, instead)
}

fn another_blank(prng: &mut Prng) -> Vec<u8> {
    let instead = prng.one_of(&[
        "\t", "\r", "\0", "\x0b", "\x0c", "\u{a0}", ",", " \t", "\t ",
    ]);
    with_space(prng, instead)
}

fn leading_blank(prng: &mut Prng) -> Vec<u8> {
    let blank = prng.one_of(&[" ", "  ", "\t", "\r", "\0", "\u{feff}"]);
    [blank.as_bytes(), &spelled(prng, &[5, 7])].concat()
}

fn trailing_blank(prng: &mut Prng) -> Vec<u8> {
    let blank = prng.one_of(&[" ", "  ", "\t", "\r", "\r", " \r", "\0"]);
    [&spelled(prng, &[5, 7]), blank.as_bytes()].concat()
}

fn blanks_alone(prng: &mut Prng) -> Vec<u8> {
    let blanks: [&[u8]; 6] = [b" ", b"  ", b"\t", b"\r", b"\0", b"       "];
    prng.one_of(&blanks).to_vec()
}

fn over_255(prng: &mut Prng) -> Vec<u8> {
    with_one(prng, |prng, _| match prng.below(3) {
        0 => "256".to_string(),
        1 => prng.between(257, 299).to_string(),
        _ => prng.between(300, 999).to_string(),
    })
}

fn four_digits(prng: &mut Prng) -> Vec<u8> {
    with_one(prng, |prng, number| match prng.below(4) {
        0 => format!("{number:0>4}"),
        1 => format!("{number:0>7}"),
        2 => prng.between(1_000, 9_999).to_string(),
        // Numbers that come back to a letter when held in too few bits.
        _ => {
            let letter = prng.between(2, 9) as u64;
            let multiple = prng.one_of(&[1 << 10, 1 << 16, 1 << 32, 1 << 56]);
            (multiple + letter).to_string()
        }
    })
}

fn another_byte(prng: &mut Prng) -> Vec<u8> {
    let (numbers, _) = numbers(prng);
    let mut line = numbers.join(" ").into_bytes();
    let byte = loop {
        let byte = match prng.below(3) {
            0 => prng.one_of(b"/:-+.,;#?aezZxA_"),
            1 => prng.between(128, 255) as u8,
            _ => prng.below(256) as u8,
        };
        if !byte.is_ascii_digit() && byte != b' ' && byte != b'\n' {
            break byte;
        }
    };
    line.insert(prng.below(line.len() + 1), byte);
    line
}

fn another_spelling(prng: &mut Prng) -> Vec<u8> {
    with_one(prng, |prng, number| match prng.below(6) {
        0 => format!("-{number}"),
        1 => format!("+{number}"),
        2 => format!("{number}.0"),
        3 => format!("0x{number}"),
        4 => "luz".to_string(),
        _ => "\u{665}".to_string(),
    })
}

fn just_too_long(prng: &mut Prng) -> Vec<u8> {
    let length = prng.one_of(&[1, 1, 1, 2, 3, 4, 255, 256, 257]);
    of_length(prng, LONGEST + length)
}

fn far_too_long(prng: &mut Prng) -> Vec<u8> {
    let length = match prng.weighted(&[80, 18, 2]) {
        0 => prng.between(300, 2_000),
        1 => prng.one_of(&[4_095, 4_096, 4_097, 8_192]),
        _ => prng.one_of(&[65_535, 65_536, 65_537, 140_000]),
    };
    if prng.percent(50) {
        of_length(prng, length)
    } else {
        let filler = prng.one_of(b"0 5x\0\xff");
        vec![filler; length]
    }
}

/// The ways for a line to be unread.
const SPOILINGS: [Spoiling; 11] = [
    two_spaces,
    another_blank,
    leading_blank,
    trailing_blank,
    blanks_alone,
    over_255,
    four_digits,
    another_byte,
    another_spelling,
    just_too_long,
    far_too_long,
];

/// Bytes of which some are line ends, all of any kind or all such as lines are made of.
fn bytes(prng: &mut Prng) -> Vec<u8> {
    let length = prng.one_of(&[1, 2, 10, 100, 300, 1_000]);
    if prng.percent(50) {
        return prng.bytes(length);
    }
    let kinds = prng.one_of(&[&b"0123456789  \n"[..], b"25 \n", b"23456 2 3 4 \r\n\t"]);
    (0..length).map(|_| prng.one_of(kinds)).collect()
}

/// A line, or bytes that may be several.
pub fn line(prng: &mut Prng, known: &Known, pool: &Pool) -> Vec<u8> {
    match prng.weighted(&[56, 24, 6, 5, 5, 4]) {
        0 => {
            let word = word(prng, known, pool);
            spelled(prng, &word)
        }
        1 => prng.one_of(&SPOILINGS)(prng),
        2 => Vec::new(),
        3 => {
            let length = prng.one_of(&[1, 2, 3, 4, 127, 128, LONGEST - 1, LONGEST, LONGEST]);
            of_length(prng, length)
        }
        4 => {
            let length = prng.between(1, 40);
            let any = prng.bytes(length);
            spelled(prng, &any)
        }
        _ => bytes(prng),
    }
}

#[cfg(test)]
mod tests {
    use super::{of_length, spelled, SPOILINGS};
    use draw::prng::Prng;
    use other_engine::lines::{word, LONGEST};

    #[test]
    fn every_spoiled_line_is_one_line_and_unread() {
        let mut prng = Prng::new(1);
        for (place, spoiling) in SPOILINGS.iter().enumerate() {
            for _ in 0..300 {
                let line = spoiling(&mut prng);
                assert!(!line.contains(&b'\n'), "{place}");
                assert_eq!(word(&line), None, "{place} {}", line.escape_ascii());
            }
        }
    }

    #[test]
    fn a_spelled_word_is_read_back() {
        let mut prng = Prng::new(2);
        for length in 0..60 {
            let letters = prng.bytes(length);
            let line = spelled(&mut prng, &letters);
            assert_eq!(word(&line), Some(letters));
        }
    }

    #[test]
    fn a_line_of_a_length_has_it_and_is_good_up_to_the_longest() {
        let mut prng = Prng::new(3);
        for length in 1..=300 {
            let line = of_length(&mut prng, length);
            assert_eq!(line.len(), length);
            assert_eq!(word(&line).is_some(), length <= LONGEST);
        }
    }
}
