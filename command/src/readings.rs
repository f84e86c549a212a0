//! The names of what a reading is made of: entries by form and gloss, pairs by letters, and the word that a pairing writes.

use crate::library;
use crate::text::alphabet::NULL;
use crate::text::Grammar;

/// An entry as readings name it.
#[derive(Clone, Debug)]
pub struct EntryName {
    pub form: String,
    /// Whether the form has no letter.
    pub is_empty: bool,
    /// The gloss in words, or a number that the text gives in its place.
    pub gloss: Option<String>,
    /// The gloss in words; where there is none, the form.
    pub headword: String,
}

impl EntryName {
    /// `luZ (luz)`, or the form alone.
    pub fn shown(&self) -> String {
        match &self.gloss {
            Some(gloss) => format!("{} ({gloss})", self.form),
            None => self.form.clone(),
        }
    }
}

/// The names of entries and pairs by number.
pub struct Names {
    pub entries: Vec<EntryName>,
    pub pairs: Vec<String>,
    /// The character that each pair writes, where it writes one.
    surfaces: Vec<Option<char>>,
}

impl Names {
    pub fn new(grammar: &Grammar) -> Names {
        let entries = grammar.entries().into_iter().enumerate();
        let entries = entries.map(|(number, (_, entry))| {
            let form = grammar.show_form(&entry.form);
            let in_words = Some(entry.gloss_text.clone()).filter(|text| !text.is_empty());
            let is_number = |text: &String| *text == entry.gloss.to_string();
            let headword = in_words.clone().filter(|text| !is_number(text)).unwrap_or_else(|| form.clone());
            // An entry without a gloss has its own number for one, which says nothing.
            let in_number = (usize::from(entry.gloss) != number).then(|| entry.gloss.to_string());
            EntryName { form, is_empty: entry.form.is_empty(), gloss: in_words.or(in_number), headword }
        });
        let alphabet = &grammar.alphabet;
        let surface = |side: u8| (side != NULL).then(|| alphabet.character(side));
        Names {
            entries: entries.collect(),
            pairs: grammar.pairs.iter().map(|pair| pair.show(alphabet)).collect(),
            surfaces: grammar.pairs.iter().map(|pair| surface(pair.surface)).collect(),
        }
    }

    /// The word that a row's pairing writes.
    pub fn written(&self, row: &[u8]) -> String {
        library::pairing(row).filter_map(|pair| self.surfaces[pair]).collect()
    }
}
