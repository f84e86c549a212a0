//! The explanation of a word in lines of text.

use super::explain::{Explainer, LeftOut, Nothing, Outcome};
use super::groups::{groups, last_entry, Group};
use super::search::{opened, Dead, Furthest, Step, Stop};
use super::tables::Tables;
use super::without::Readings;
use crate::library::Reply;
use crate::readings::{EntryName, Names};
use crate::refusals;
use crate::text::alphabet::NULL;

/// Reasons that are told of one place, entries of one lexicon, and readings.
const MOST_GROUPS: usize = 3;
const MOST_TRIED: usize = 6;
const MOST_READINGS: usize = 3;
pub(super) const LATE: &str = "the library has not answered within 10 seconds";
/// Characters of a gloss that are shown.
const MOST_GLOSS: usize = 40;

pub struct Teller<'a> {
    pub(super) explainer: &'a Explainer<'a>,
    pub(super) tables: &'a Tables<'a>,
    pub(super) names: Names,
}

impl<'a> Teller<'a> {
    pub fn new(explainer: &'a Explainer<'a>) -> Teller<'a> {
        Teller { explainer, tables: &explainer.tables, names: Names::new(&explainer.loaded.grammar) }
    }

    /// The lines of a word, given as the bytes that were typed.
    pub fn tell(&self, typed: &[u8]) -> String {
        let word = String::from_utf8_lossy(typed);
        match self.explainer.explain(typed) {
            Outcome::Unread(why) => format!("{word}: unread: {why}\n"),
            Outcome::Refused(number) => format!("{word}: {}\n", refusals::told(number)),
            Outcome::Read(readings) => format!("{word}: {}\n{}", count(&readings), self.readings(&readings)),
            Outcome::Late => {
                format!("{word}: {LATE}: the grammar leaves too much to try\n")
            }
            Outcome::NeverWritten { why, lowered } => {
                let mut told = format!("{word}: no reading\n");
                told.extend(why.iter().map(|why| format!("  {why}\n")));
                if let Some((lowered, readings)) = lowered {
                    told += &format!("{lowered} has {}:\n{}", count(&readings), self.readings(&readings));
                }
                told
            }
            Outcome::None(nothing) => {
                let mut characters: Vec<char> = word.chars().collect();
                if characters.len() != nothing.word.len() {
                    // Accents were joined with their letters.
                    characters = self.explainer.written(&nothing.word);
                }
                format!("{word}: no reading\n{}", self.nothing(&characters, &nothing))
            }
        }
    }

    fn nothing(&self, word: &[char], nothing: &Nothing) -> String {
        let mut told = String::new();
        for refusal in &nothing.furthest.front {
            told += &format!("  before any letter, {}\n", self.tables.told(refusal, self.tables.boundary()));
        }
        if nothing.furthest.through {
            told += "  a way comes through that the library does not have, so that what follows may be wrong\n";
        }
        if nothing.furthest.front.is_empty() {
            told += &self.furthest("furthest", word, &nothing.furthest, &nothing.left_out);
        }
        for left_out in &nothing.left_out {
            told += &self.left_out(left_out, &nothing.furthest);
        }
        if let Some(furthest) = &nothing.without_rules {
            told += &self.furthest("furthest without rules", word, furthest, &[]);
        }
        if nothing.late {
            told += &format!("{}\n", late_without());
        } else if nothing.left_out.is_empty() && nothing.rules > 0 {
            told += "without any rule it has no reading either: entries and pairs do not make this word\n";
        }
        told
    }

    fn furthest(&self, what: &str, word: &[char], furthest: &Furthest, left_out: &[LeftOut]) -> String {
        let (before, left) = word.split_at(furthest.covered);
        let (before, left): (String, String) = (before.iter().collect(), left.iter().collect());
        let mut told = format!("{what}: {before}|{left}\n");
        let mut groups = groups(&furthest.dead, self.tables);
        let helps =
            |group: &Group| left_out.iter().any(|one| group.rules().iter().any(|rule| one.rules.contains(rule)));
        if groups.iter().any(helps) {
            groups.retain(helps);
        }
        // Where no rule is to blame, lexicons are.
        groups.sort_by_key(|group| left_out.is_empty() == matches!(group, Group::Barred { .. }));
        let rest = groups.len().saturating_sub(MOST_GROUPS);
        groups.truncate(MOST_GROUPS);
        let groups: Vec<String> = groups.iter().map(|group| self.group(group, &left, left_out)).collect();
        told += &groups.join("  or\n");
        if rest > 0 {
            told += &format!("  {} there too\n", others_stop(rest));
        }
        if furthest.cut {
            told += "  not every way was tried: there are too many\n";
        }
        told
    }

    fn group(&self, group: &Group, left: &str, left_out: &[LeftOut]) -> String {
        match group {
            Group::Barred { dead } => {
                let begins =
                    |way: &&&Dead| left_out.iter().any(|one| one.readings.all().any(|reading| way.begins(&reading)));
                let way = dead.iter().find(begins).unwrap_or(&dead[0]);
                let others = dead.len() - 1;
                let also = if others > 0 { format!("  {} so too\n", others_stop(others)) } else { String::new() };
                self.pairing(way, barred_pair(way)) + &self.entries(&way.steps) + &self.barred(way) + &also
            }
            Group::Unfit { lexicons, dead } => {
                let before = last_entry(dead[0]).0;
                self.pairing(dead[0], None) + &self.entries(before) + &self.unfit(lexicons, dead, left)
            }
        }
    }

    /// The pairs so far in two lines, and in brackets the one that is refused.
    fn pairing(&self, dead: &Dead, refused: Option<usize>) -> String {
        let pairs: Vec<_> = dead.pairs().map(|pair| (pair, false)).chain(refused.map(|pair| (pair, true))).collect();
        if pairs.is_empty() {
            return String::new();
        }
        let alphabet = &self.explainer.loaded.grammar.alphabet;
        let line = |side: &dyn Fn(usize) -> u8| -> String {
            let shown = pairs.iter().map(|&(pair, refused)| {
                let character = alphabet.character(side(pair));
                if refused {
                    format!(" [{character}]")
                } else {
                    format!(" {character}")
                }
            });
            shown.collect()
        };
        let lexical = line(&|pair| self.tables.pair(pair).lexical);
        format!("  lexical {lexical}\n  surface {}\n", line(&|pair| self.tables.pair(pair).surface))
    }

    fn entries(&self, steps: &[Step]) -> String {
        let shown: Vec<String> = opened(steps).map(|entry| self.entry(entry)).collect();
        if shown.is_empty() {
            return String::new();
        }
        format!("  entries  {}\n", shown.join(" "))
    }

    fn entry(&self, number: usize) -> String {
        let name = &self.names.entries[number];
        short(&name.form, name)
    }

    fn barred(&self, dead: &Dead) -> String {
        match &dead.stop {
            Stop::Refused { pair, by } => {
                by.iter().map(|refusal| format!("  {}\n", self.tables.told(refusal, *pair))).collect()
            }
            Stop::Nulls { pair } => {
                let side = if self.tables.pair(*pair).lexical == NULL { "lexical" } else { "surface" };
                format!("  {} would be the ninth pair with a {side} null; a pairing has at most 8\n", self.pair(*pair))
            }
            _ => "  another entry would be the seventeenth; a path has at most 16\n".to_string(),
        }
    }

    pub(super) fn pair(&self, pair: usize) -> String {
        self.tables.show(pair)
    }

    fn unfit(&self, lexicons: &[usize], all: &[&Dead], left: &str) -> String {
        let grammar = &self.explainer.loaded.grammar;
        let names: Vec<&str> = lexicons.iter().map(|&lexicon| grammar.lexicons[lexicon].name.as_str()).collect();
        let lexicons = if names.len() == 1 { "lexicon" } else { "lexicons" };
        let of = format!("no entry of {lexicons} {}", names.join(", "));
        let nothing_fits = all.iter().all(|dead| dead.place == 0 && dead.stop == Stop::NoPair);
        let mut told = match left.chars().next() {
            None => format!("  the word ends, and {of} ends with it\n"),
            Some(next) if nothing_fits => format!("  {of} begins with {next}\n"),
            Some(next) => format!("  {of} goes on with {next}\n"),
        };
        if nothing_fits && all.len() > MOST_TRIED {
            return told;
        }
        let mut rows: Vec<(String, String)> = all.iter().map(|dead| self.tried(dead, left)).collect();
        rows.dedup();
        let more = rows.len().saturating_sub(MOST_TRIED);
        rows.truncate(MOST_TRIED);
        let width = rows.iter().map(|(entry, _)| entry.chars().count()).max().unwrap_or(0);
        told.extend(rows.iter().map(|(entry, why)| format!("    {entry:width$}  {why}\n")));
        if more > 0 {
            told += &format!("    and {more} more\n");
        }
        told
    }

    /// An entry that was tried, with a bar where it came to, and why no further.
    fn tried(&self, dead: &Dead, left: &str) -> (String, String) {
        let number = last_entry(dead).1;
        let (entry, name) = (self.tables.entries[number].0, &self.names.entries[number]);
        let grammar = &self.explainer.loaded.grammar;
        let mut form: Vec<char> = name.form.chars().collect();
        if dead.place > 0 {
            form.insert(dead.place, '|');
        }
        let shown = short(&form.iter().collect::<String>(), name);
        let next = entry.form.get(dead.place).map(|&letter| grammar.alphabet.character(letter));
        let why = match (&dead.stop, next) {
            (Stop::NoPair, Some(next)) => format!("no pair {next}:{}", left.chars().next().unwrap_or_default()),
            (Stop::WordEnds, Some(next)) => format!("goes on with {next}"),
            _ => format!("ends the word, and {left} is left"),
        };
        (shown, why)
    }

    fn left_out(&self, left_out: &LeftOut, furthest: &Furthest) -> String {
        let rules = &self.explainer.loaded.grammar.rules;
        let names: Vec<String> = left_out.rules.iter().map(|&rule| format!("\"{}\"", rules[rule].name)).collect();
        let rules = if names.len() == 1 { "rule" } else { "rules" };
        let mut told = format!("without {rules} {} it has {}:\n", names.join(" and "), count(&left_out.readings));
        told += &self.readings(&left_out.readings);
        let Some((_, pairing)) = left_out.readings.all().next() else {
            return told;
        };
        for &rule in &left_out.rules {
            let Some((pair, refusal)) = self.tables.refused_by(rule, &pairing) else {
                continue;
            };
            let is_told = |dead: &Dead| matches!(&dead.stop, Stop::Refused { pair: other, by } if *other == pair && by.contains(&refusal));
            if !furthest.front.contains(&refusal) && !furthest.dead.iter().any(is_told) {
                told += &format!("  {}\n", self.tables.told(&refusal, pair));
            }
        }
        told
    }

    fn readings(&self, readings: &Readings) -> String {
        let mut told = String::new();
        for (path, pairing) in readings.all().take(MOST_READINGS) {
            let path: Vec<String> = path.iter().map(|&entry| self.entry(entry)).collect();
            let pairing: Vec<&str> = pairing.iter().map(|&pair| self.names.pairs[pair].as_str()).collect();
            told += &format!("  {}  | {}\n", path.join(" "), pairing.join(" "));
        }
        if readings.reply.rows() > MOST_READINGS {
            told += "  ..\n";
        }
        told
    }
}

/// What is told where not every rule was left out in turn.
pub(super) fn late_without() -> String {
    format!("{LATE}, so that not every rule was left out in turn")
}

/// A form with the gloss of its entry, of a long one only the beginning.
fn short(form: &str, name: &EntryName) -> String {
    match &name.gloss {
        Some(gloss) if gloss.chars().count() > MOST_GLOSS => {
            let beginning: String = gloss.chars().take(MOST_GLOSS - 2).collect();
            format!("{form} ({}..)", beginning.trim_end())
        }
        Some(gloss) => format!("{form} ({gloss})"),
        None => form.to_string(),
    }
}

/// The pair that bars a way.
pub(super) fn barred_pair(dead: &Dead) -> Option<usize> {
    match dead.stop {
        Stop::Refused { pair, .. } | Stop::Nulls { pair } => Some(pair),
        _ => None,
    }
}

fn others_stop(count: usize) -> String {
    match count {
        1 => "1 other way stops".to_string(),
        _ => format!("{count} other ways stop"),
    }
}

fn count(readings: &Readings) -> String {
    match readings.reply {
        Reply::All(1) => "1 reading".to_string(),
        Reply::More(count) => format!("more than {count} readings"),
        reply => format!("{} readings", reply.rows()),
    }
}
