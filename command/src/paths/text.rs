//! A path as text: its entries, each by its form, by form and gloss as readings show it, or by number.

use super::links::Links;
use super::MOST_ENTRIES;
use crate::nearest::{is_meant, nearest};
use crate::readings::Names;
use crate::text::lines::BLANKS;
use std::collections::HashMap;

pub struct Entries<'a> {
    names: &'a Names,
    links: &'a Links<'a>,
    by_form: HashMap<&'a str, Vec<usize>>,
}

impl<'a> Entries<'a> {
    pub fn new(names: &'a Names, links: &'a Links<'a>) -> Entries<'a> {
        let mut by_form: HashMap<&str, Vec<usize>> = HashMap::new();
        for (number, entry) in names.entries.iter().enumerate() {
            by_form.entry(&entry.form).or_default().push(number);
        }
        Entries { names, links, by_form }
    }

    /// For each place of the path the entries that are written so.
    pub fn read(&self, text: &str) -> Result<Vec<Vec<usize>>, String> {
        let mut places = Vec::new();
        let mut rest = text.trim_matches(BLANKS);
        while !rest.is_empty() {
            let (word, after) = rest.split_at(rest.find(BLANKS).unwrap_or(rest.len()));
            let (place, after) = self.read_entry(word, after.trim_start_matches(BLANKS))?;
            places.push(place);
            rest = after.trim_start_matches(BLANKS);
        }
        Ok(places)
    }

    fn read_entry<'t>(&self, word: &str, after: &'t str) -> Result<(Vec<usize>, &'t str), String> {
        let alike = self.alike(word);
        if alike.is_empty() {
            let near = nearest(word, self.by_form.keys().copied());
            return Err(format!("no entry has the form {word}{}", is_meant(near)));
        }
        if !after.starts_with('(') {
            return Ok((alike, after));
        }
        let length = alike.iter().filter_map(|&entry| self.gloss_length(entry, after)).max();
        let Some(length) = length else {
            return Err(format!("no entry {word} has a gloss that begins {after}"));
        };
        let glossed = alike.into_iter().filter(|&entry| self.gloss_length(entry, after) == Some(length));
        Ok((glossed.collect(), &after[length..]))
    }

    /// The entries with a form; and the one with a number, if it is one.
    fn alike(&self, word: &str) -> Vec<usize> {
        let mut alike = self.by_form.get(word).cloned().unwrap_or_default();
        let number = word.parse().ok().filter(|number| *number < self.names.entries.len() && !alike.contains(number));
        alike.extend(number);
        alike
    }

    /// The bytes of an entry's gloss in brackets, where a text begins with it.
    fn gloss_length(&self, entry: usize, text: &str) -> Option<usize> {
        let gloss = self.names.entries[entry].gloss.as_ref()?;
        let after = text.strip_prefix('(')?.strip_prefix(gloss.as_str())?.strip_prefix(')')?;
        (after.is_empty() || after.starts_with(BLANKS)).then_some(text.len() - after.len())
    }

    /// Every way to take an entry at each place so that each is linked with the next and the last ends the word, at most
    /// `most` of them; none where the places are more than a path can have.
    pub fn linked(&self, places: &[Vec<usize>], most: usize) -> Vec<Vec<usize>> {
        let mut found = Vec::new();
        if places.len() <= MOST_ENTRIES {
            self.link(&self.with_an_end(places), most, &mut Vec::new(), &mut found);
        }
        found
    }

    /// At each place the entries from which the places after it come to the end of a word. By these alone a way is found in
    /// each turn, however many entries are alike.
    fn with_an_end(&self, places: &[Vec<usize>]) -> Vec<Vec<usize>> {
        let mut kept: Vec<Vec<usize>> = Vec::new();
        for place in places.iter().rev() {
            let goes_on = |entry: usize| match kept.last() {
                None => self.links.may_end(entry),
                Some(next) => next.iter().any(|&next| self.links.follows(Some(entry), next)),
            };
            let ending: Vec<usize> = place.iter().copied().filter(|&entry| goes_on(entry)).collect();
            kept.push(ending);
        }
        kept.reverse();
        kept
    }

    fn link(&self, places: &[Vec<usize>], most: usize, path: &mut Vec<usize>, found: &mut Vec<Vec<usize>>) {
        let Some((place, rest)) = places.split_first() else {
            found.extend((!path.is_empty()).then(|| path.clone()));
            return;
        };
        let last = path.last().copied();
        for &entry in place.iter().filter(|&&entry| self.links.follows(last, entry)) {
            if found.len() == most {
                return;
            }
            path.push(entry);
            self.link(rest, most, path, found);
            path.pop();
        }
    }

    /// Why no way links the places.
    pub fn not_linked(&self, places: &[Vec<usize>]) -> String {
        let mut before: Vec<Option<usize>> = vec![None];
        for place in places {
            let follows = |&entry: &usize| before.iter().any(|&last| self.links.follows(last, entry));
            let linked: Vec<Option<usize>> = place.iter().copied().filter(follows).map(Some).collect();
            if linked.is_empty() {
                return self.not_next(before[0], place[0]);
            }
            before = linked;
        }
        match before[0].and_then(|last| Some((last, self.links.following(last)?))) {
            Some((last, following)) => format!("the word does not end after {}: {following}", self.shown(last)),
            None => "a path has an entry or more".to_string(),
        }
    }

    fn not_next(&self, last: Option<usize>, entry: usize) -> String {
        let (shown, lexicon) = (self.shown(entry), self.links.lexicon(entry));
        let Some(last) = last else {
            return format!("{shown} is in lexicon {lexicon}, and words begin in {}", self.links.first_lexicon());
        };
        match self.links.following(last) {
            None => format!("{shown} cannot follow {}, which ends the word", self.shown(last)),
            Some(following) => format!("{shown} is in lexicon {lexicon}, and {following} {}", self.shown(last)),
        }
    }

    fn shown(&self, entry: usize) -> String {
        self.names.entries[entry].shown()
    }
}
