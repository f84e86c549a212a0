//! A grammar: letters, sets, pairs, rules and lexicons that an image can hold.

use crate::nearest::{is_meant, nearest};
use crate::text::alphabet::{Alphabet, NULL};
use crate::text::alternations::Alternation;
use crate::text::columns::Sides;
use crate::text::fault::Faults;
use crate::text::form::{self, Asked, Form};
use crate::text::lexicons::{self, Entry, Lexicon};
use crate::text::lines::Line;
use crate::text::pairs::{self, Pair};
use crate::text::rules::{self, Rule};
use crate::text::sets::Sets;
use crate::text::slips::{only_slips, slips};
use crate::text::ways::Ways;
use crate::text::{lines, sections};

/// Only `read_grammar` makes one, and `decode` of an image that the library accepts: so every grammar keeps the limits, has
/// one narrowest column for each pair in each rule, has each letter of a form on the lexical side of a pair, and fits its form.
#[derive(Debug)]
pub struct Grammar {
    /// The form of its image.
    pub(crate) form: Form,
    pub(crate) alphabet: Alphabet,
    pub(crate) sets: Sets,
    pub(crate) pairs: Vec<Pair>,
    pub(crate) rules: Vec<Rule>,
    /// Not in an image; its names have them.
    pub(crate) alternations: Vec<Alternation>,
    pub(crate) lexicons: Vec<Lexicon>,
    /// Whether names and glosses in words are known.
    pub(crate) named: bool,
}

/// Reads the bytes of a text. A part that others lean on ends the reading if it has faults; rules and
/// lexicons do not lean on each other, so the faults of both are found.
pub fn read_grammar(bytes: &[u8]) -> Result<Grammar, Faults> {
    read_grammar_as(bytes, None)
}

/// The grammar for an image of the form that is asked for, whatever the text asks for; by whom it is asked is told.
pub fn read_grammar_as(bytes: &[u8], asked: Option<(Form, &str)>) -> Result<Grammar, Faults> {
    let text = lines::decode(bytes)?;
    let asked = asked.map(|(form, by)| Asked { form, by: by.to_string() });
    // To look for slips takes longer than the reading, so that only a text with faults is searched for them.
    read_lines(lines::split(text)?, asked).map_err(|faults| match lines::split(text) {
        Ok(lines) => only_slips(slips(&lines), faults),
        Err(_) => faults,
    })
}

fn read_lines(lines: Vec<Line>, asked: Option<Asked>) -> Result<Grammar, Faults> {
    let sections = sections::divide(lines)?;
    let alphabet = Alphabet::read(&sections)?;
    let sets = Sets::read(&sections.subsets, &alphabet)?;
    let pairs = pairs::read(&sections.pairs, &alphabet)?;
    let mut faults = Faults::default();
    let sides = Sides { alphabet: &alphabet, sets: &sets };
    let rules = rules::read(&sections.rules, sides, &pairs, &mut faults);
    let (alternations, lexicons) = lexicons::read(&sections, &alphabet, &pairs, &mut faults);
    let in_text = sections.form.as_ref().and_then(|section| faults.keep(form::read(section)));
    faults.or(())?;
    let form = form::choose(asked.or(in_text), &lexicons, (rules.len(), !sets.all().is_empty()), &alphabet)?;
    Ok(Grammar { form, alphabet, sets, pairs, rules, alternations, lexicons, named: true })
}

impl Grammar {
    /// The entries in the order of their numbers, each with its lexicon.
    pub(crate) fn entries(&self) -> Vec<(&Lexicon, &Entry)> {
        let lexicons = self.lexicons.iter();
        lexicons.flat_map(|lexicon| lexicon.entries.iter().map(move |entry| (lexicon, entry))).collect()
    }

    /// A form as the text writes it.
    pub(crate) fn show_form(&self, form: &[u8]) -> String {
        if form.is_empty() {
            return self.alphabet.character(NULL).to_string();
        }
        form.iter().map(|&letter| self.alphabet.character(letter)).collect()
    }

    /// The ways on from an entry by the names of lexicons.
    pub(crate) fn show_ways(&self, ways: Ways) -> String {
        ways.shown(&self.lexicons, &self.alphabet)
    }

    /// Whether form 1 would serve: each entry has one way on.
    pub(crate) fn has_one_way(&self) -> bool {
        self.entries().iter().all(|(_, entry)| entry.ways.is_one())
    }

    /// The place of the rule that is asked for: by its name, the beginning of one name alone, or its number.
    pub(crate) fn find_rule(&self, asked: &str) -> Result<usize, String> {
        let names = || self.rules.iter().map(|rule| rule.name.as_str());
        let found = |takes: &dyn Fn(&str) -> bool| -> Vec<usize> {
            names().enumerate().filter(|(_, name)| takes(name)).map(|(at, _)| at).collect()
        };
        // Names need not differ; a number always tells rules apart.
        for places in [found(&|name| name == asked), found(&|name| name.starts_with(asked))] {
            match places[..] {
                [] => {}
                [at] => return Ok(at),
                [first, second, ..] => {
                    return Err(format!("\"{asked}\" may be rule {first} or rule {second}; give the number"))
                }
            }
        }
        match asked.parse::<usize>() {
            Ok(number) if number < self.rules.len() => Ok(number),
            Ok(number) => Err(format!("there is no rule {number}; the grammar has {}, from 0 on", self.rules.len())),
            Err(_) => Err(format!("no rule is called \"{asked}\"{}", is_meant(nearest(asked, names())))),
        }
    }
}
