//! What the library answers where rules are left out of an image.

use crate::library::{self, Reply, ROW};
use crate::text::image::BLOCK;
use std::sync::mpsc;
use std::thread;
use std::time::Duration;

/// Where a block's kind stands, and the kind of a rule's block.
const KIND: usize = 2;
const RULE: u8 = 4;
/// Where the first block counts the rules.
const RULES: usize = 10;

/// The image without the rules at some places, sealed by the library.
pub fn without(image: &[u8], rules: &[usize]) -> Vec<u8> {
    let mut left = Vec::with_capacity(image.len());
    let mut rule = 0;
    for block in image.chunks(BLOCK) {
        let is_rule = block[KIND] == RULE;
        if !(is_rule && rules.contains(&rule)) {
            left.extend_from_slice(block);
        }
        rule += usize::from(is_rule);
    }
    let count = (rule - rules.len()) as u16;
    left[RULES..][..2].copy_from_slice(&count.to_le_bytes());
    library::seal(&mut left);
    left
}

/// Readings as the library gives them.
#[derive(Debug)]
pub struct Readings {
    pub reply: Reply,
    rows: Vec<u8>,
}

impl Readings {
    /// The entries and the pairs of each reading.
    pub fn all(&self) -> impl Iterator<Item = (Vec<usize>, Vec<usize>)> + '_ {
        let rows = self.rows.chunks(ROW).take(self.reply.rows());
        rows.map(|row| (library::path(row).collect(), library::pairing(row).collect()))
    }
}

/// The readings of a word; none where the library has not answered in time. A call cannot be interrupted, so that one that is
/// too long ends with the program.
pub fn ask(image: &[u8], word: &[u8], most: usize, time: Duration) -> Option<Readings> {
    let call = move |image: &[u8], word: &[u8]| {
        let mut rows = vec![0; most * ROW];
        Readings { reply: library::analyse(image, word, &mut rows), rows }
    };
    let (image_copy, word_copy) = (image.to_vec(), word.to_vec());
    let (sender, receiver) = mpsc::channel();
    let begun = thread::Builder::new().spawn(move || {
        // Nobody waits for an answer that comes too late.
        let _ = sender.send(call(&image_copy, &word_copy));
    });
    match begun {
        Ok(_) => receiver.recv_timeout(time).ok(),
        // Where no thread can be had it is waited for, however long it takes.
        Err(_) => Some(call(image, word)),
    }
}

#[cfg(test)]
mod tests {
    use super::*;
    use crate::text::{read_grammar, sealed_image};

    const SPANISH: &str = include_str!("../../../grammars/spanish.txt");

    #[test]
    fn an_image_without_rules_is_accepted_and_is_that_of_the_text_without_them() {
        let image = sealed_image(&read_grammar(SPANISH.as_bytes()).unwrap());
        let (before, rule) = SPANISH.split_at(SPANISH.find("RULE \"Q becomes").unwrap());
        let (_, after) = rule.split_at(rule.find("LEXICON").unwrap());
        let text = format!("{before}{after}");
        assert_eq!(without(&image, &[6]), sealed_image(&read_grammar(text.as_bytes()).unwrap()));
        for left_out in [vec![0], vec![2, 5], (0..7).collect()] {
            assert_eq!(library::check(&without(&image, &left_out)), Reply::All(0));
        }
    }
}
