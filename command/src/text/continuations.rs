//! What the words after a form stand for: lexicons, alternations, and the end of the word.

use crate::nearest::{is_meant, nearest};
use crate::text::alphabet::{Alphabet, BOUNDARY};
use crate::text::hints::quote_meant;
use crate::text::lines::{is_alone, is_number, Word};
use crate::text::ways::Ways;
use std::collections::HashMap;

/// What an entry can name to go on.
#[derive(Debug, Default)]
pub struct Names<'a> {
    /// The number of each lexicon, and its line.
    pub lexicons: HashMap<&'a str, (u8, usize)>,
    /// The place of each alternation, and its ways.
    pub choices: HashMap<&'a str, (usize, Ways)>,
}

impl Names<'_> {
    pub fn lexicon(&self, name: &str) -> Option<Ways> {
        self.lexicons.get(name).map(|&(number, _)| Ways::to(number))
    }

    /// The ways that a word after a form stands for.
    fn ways(&self, word: &str, alphabet: &Alphabet) -> Option<Ways> {
        let end = is_end(word, alphabet).then_some(Ways::END);
        end.or(self.lexicon(word)).or(self.choices.get(word).map(|&(_, ways)| ways))
    }

    /// The name that a word is a slip of.
    fn near(&self, word: &str) -> Option<&str> {
        nearest(word, self.lexicons.keys().chain(self.choices.keys()).copied())
    }

    /// That no lexicon is called so, and what may be meant.
    pub fn unknown(&self, word: &str, alphabet: &Alphabet) -> String {
        let end = alphabet.character(BOUNDARY);
        let hint = match self.near(word) {
            None => format!("; {end} in its place ends the word"),
            near => is_meant(near),
        };
        format!("no lexicon is called {word}{hint}")
    }
}

/// The boundary in place of a lexicon's name ends the word.
pub fn is_end(name: &str, alphabet: &Alphabet) -> bool {
    is_alone(name, alphabet.character(BOUNDARY))
}

/// All that the words after a form name. A lexicon that comes by two names is one way; a name that stands twice is a slip.
pub fn read_ways(words: &[&str], alphabet: &Alphabet, names: &Names) -> Result<Ways, String> {
    let mut all = Ways::default();
    for (at, word) in words.iter().enumerate() {
        let Some(ways) = names.ways(word, alphabet) else {
            return Err(unknown_way(words, at, alphabet, names));
        };
        if words[..at].contains(word) {
            return Err(format!("{word} stands twice among the continuations"));
        }
        all = all.and(ways);
    }
    Ok(all)
}

/// A word after a continuation that names nothing may be a gloss without its quotation marks.
fn unknown_way(words: &[&str], at: usize, alphabet: &Alphabet, names: &Names) -> String {
    let word = words[at];
    if at == 0 || names.near(word).is_some() {
        return names.unknown(word, alphabet);
    }
    let gloss = words[at..].join(" ");
    let hint = match quote_meant(&words[at..].iter().map(|word| Word::Bare(word)).collect::<Vec<_>>()) {
        Some(quote) => quote,
        None if is_number(word) => "; a gloss stands last".to_string(),
        None => format!("; is \"{gloss}\" meant, a gloss?"),
    };
    format!("no lexicon is called {word}{hint}")
}
