//! What the line program prints is settled line by line, by the image and the bytes of each line alone.

use crate::calls::{analyse, Known};
use crate::pairings::TooBig;
use crate::reading::{Reading, Stop};
use std::collections::HashMap;
use std::fmt::Display;
use std::rc::Rc;

/// The rows lent for each word.
pub const ROWS: usize = 64;
/// The bytes of the longest line that is read, its line end left out.
pub const LONGEST: usize = 255;

/// What is printed for a line, its line ends included; nothing is known where the enumeration is too big.
pub type Answer = Result<Rc<str>, TooBig>;

/// The lines of a whole input, without their line ends.
pub fn lines(input: &[u8]) -> Vec<&[u8]> {
    let mut lines: Vec<&[u8]> = input.split(|&byte| byte == b'\n').collect();
    // After the last line end, and in an empty input, nothing is left that would be a line.
    if lines.last().is_some_and(|last| last.is_empty()) {
        lines.pop();
    }
    lines
}

/// One number of one to three digits, up to 255.
fn number(digits: &[u8]) -> Option<u8> {
    if digits.is_empty() || digits.len() > 3 || !digits.iter().all(u8::is_ascii_digit) {
        return None;
    }
    let value = digits
        .iter()
        .fold(0, |sum, digit| 10 * sum + u16::from(digit - b'0'));
    u8::try_from(value).ok()
}

/// The word of a line, or none where the line is unread.
pub fn word(line: &[u8]) -> Option<Vec<u8>> {
    if line.len() > LONGEST {
        return None;
    }
    if line.is_empty() {
        return Some(Vec::new());
    }
    line.split(|&byte| byte == b' ').map(number).collect()
}

fn spaced<T: Display>(numbers: &[T]) -> String {
    let texts: Vec<String> = numbers.iter().map(T::to_string).collect();
    texts.join(" ")
}

/// The reply and number of a list of readings, then a line a row.
pub fn listed(readings: &[Reading]) -> String {
    let reply = match readings.len() {
        0 => "none",
        1..=ROWS => "all",
        _ => "more",
    };
    let rows = &readings[..readings.len().min(ROWS)];
    let mut text = format!("{reply} {}\n", rows.len());
    for row in rows {
        text += &format!("{} | {}\n", spaced(&row.path), spaced(&row.pairing));
    }
    text
}

/// What is printed for one line.
pub fn answer(known: &Known, line: &[u8]) -> Answer {
    let Some(word) = word(line) else {
        return Ok("unread\n".into());
    };
    match analyse(known, &word) {
        Ok(readings) => Ok(listed(&readings).into()),
        Err(Stop::Refused(k)) => Ok(format!("refused {k}\n").into()),
        Err(Stop::TooBig) => Err(TooBig),
    }
}

/// Every line of an input with what is printed for it, equal lines worked out once.
pub fn answers<'a>(known: &Known, input: &'a [u8]) -> Vec<(&'a [u8], Answer)> {
    let mut met: HashMap<&[u8], Answer> = HashMap::new();
    lines(input)
        .into_iter()
        .map(|line| {
            let answer = met.entry(line).or_insert_with(|| answer(known, line));
            (line, answer.clone())
        })
        .collect()
}
