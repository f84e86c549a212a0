//! A word file is run through the program as it is, and of its words all are compared but those too big for the engine.

use crate::cases::Place;
use crate::fault::{first_difference, Fault};
use crate::program::run;
use other_engine::image::read;
use other_engine::lines::{answers, ROWS};
use std::fs;
use std::path::Path;

fn file(path: &str) -> Result<Vec<u8>, Fault> {
    fs::read(path).map_err(|error| Fault::Unusable(format!("{path}: {error}")))
}

/// The rest after one line, which is handed back too, without its line end.
fn one_line(printed: &[u8]) -> Option<(&[u8], &[u8])> {
    let end = printed.iter().position(|&byte| byte == b'\n')?;
    Some((&printed[..end], &printed[end + 1..]))
}

/// The rest after an answer of a word that is neither refused nor unread, its rows passed over unread.
fn passed_over(printed: &[u8]) -> Option<&[u8]> {
    let (reply, mut rest) = one_line(printed)?;
    let (kind, number) = std::str::from_utf8(reply).ok()?.split_once(' ')?;
    let rows: usize = number.parse().ok()?;
    let fits = match kind {
        "none" => rows == 0,
        "all" => (1..=ROWS).contains(&rows),
        "more" => rows == ROWS,
        _ => false,
    };
    for _ in 0..rows {
        rest = one_line(rest)?.1;
    }
    fits.then_some(rest)
}

fn difference(number: usize, line: &[u8], told: String) -> Fault {
    let line = line.escape_ascii();
    Fault::Difference(format!("line {number} \"{line}\"\n{told}"))
}

/// Compares what is printed for each word of a file, and prints how many were compared and skipped.
pub fn compare(program: &Path, image: &str, words: &str) -> Result<(), Fault> {
    let image = file(image)?;
    let words = file(words)?;
    let known = read(&image);
    let left = run(program, &Place::File(image), &words, words.len().max(1))?;
    let mut rest = &left.printed[..];
    let (mut compared, mut skipped) = (0, 0);
    for (place, (line, answer)) in answers(&known, &words).into_iter().enumerate() {
        let number = place + 1;
        match answer {
            Ok(text) => {
                rest = rest.strip_prefix(text.as_bytes()).ok_or_else(|| {
                    difference(number, line, first_difference(text.as_bytes(), rest))
                })?;
                compared += 1;
            }
            Err(_) => {
                rest = passed_over(rest).ok_or_else(|| {
                    let told = "the engine skips this word, and the program's answer has no rows to pass over";
                    difference(number, line, told.to_string())
                })?;
                skipped += 1;
            }
        }
    }
    if let Some(signal) = left.signal {
        let told = format!("the program ended by signal {signal}");
        return Err(Fault::Difference(told));
    }
    if !rest.is_empty() {
        let told = format!("after the last word, {}", first_difference(b"", rest));
        return Err(Fault::Difference(told));
    }
    println!(
        "words {} compared {compared} skipped {skipped}",
        compared + skipped
    );
    Ok(())
}

#[cfg(test)]
mod tests {
    use super::passed_over;

    #[test]
    fn an_answer_is_passed_over_with_its_rows() {
        let passed = |text: &'static str| passed_over(text.as_bytes());
        assert_eq!(passed("none 0\nall 1\n"), Some(&b"all 1\n"[..]));
        assert_eq!(passed("all 2\n0 | 0\n1 | 0\nx"), Some(&b"x"[..]));
        assert_eq!(passed("all 2\n0 | 0\n"), None);
        assert_eq!(passed("more 1\n0 | 0\n"), None);
        assert_eq!(passed("refused 9\n"), None);
        assert_eq!(passed("unread\n"), None);
        assert_eq!(passed(""), None);
    }
}
