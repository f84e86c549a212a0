//! Lists of letters, pairs, sets and entries by number, for those who read the analyser's numbers.

use crate::text::alphabet::Alphabet;
use crate::text::grammar::Grammar;
use crate::text::lexicons::{Entry, Lexicon};

/// A line a letter: number, letter.
pub fn list_letters(grammar: &Grammar) -> String {
    let letters = (1..).zip(grammar.alphabet.letters());
    letters.map(|(number, letter): (usize, char)| format!("{number}\t{letter}\n")).collect()
}

/// A line a pair: number, pair.
pub fn list_pairs(grammar: &Grammar) -> String {
    let pairs = grammar.pairs.iter().enumerate();
    pairs.map(|(number, pair)| format!("{number}\t{}\n", pair.show(&grammar.alphabet))).collect()
}

/// A line a set: number, name, letters.
pub fn list_sets(grammar: &Grammar) -> String {
    let sets = grammar.sets.all().iter().enumerate();
    sets.map(|(number, set)| format!("{number}\t{}\t{}\n", set.name, show_letters(&set.letters, &grammar.alphabet)))
        .collect()
}

/// A line an entry: number, lexicon, form, continuations, gloss number, gloss in words.
pub fn list_entries(grammar: &Grammar) -> String {
    let entries = grammar.entries().into_iter().enumerate();
    entries.map(|(number, (lexicon, entry))| list_entry(number, lexicon, entry, grammar)).collect()
}

fn list_entry(number: usize, lexicon: &Lexicon, entry: &Entry, grammar: &Grammar) -> String {
    let (form, ways) = (grammar.show_form(&entry.form), grammar.show_ways(entry.ways));
    let (name, gloss, gloss_text) = (&lexicon.name, entry.gloss, &entry.gloss_text);
    format!("{number}\t{name}\t{form}\t{ways}\t{gloss}\t{gloss_text}\n")
}

fn show_letters(letters: &[u8], alphabet: &Alphabet) -> String {
    let shown: Vec<String> = letters.iter().map(|&letter| alphabet.character(letter).to_string()).collect();
    shown.join(" ")
}
