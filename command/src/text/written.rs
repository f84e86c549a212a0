//! Writes a grammar as text. Reading the text gives the same image again.

use crate::text::alphabet::{ANY, BOUNDARY, NULL};
use crate::text::columns::Sides;
use crate::text::form::Form;
use crate::text::lexicons::{Entry, Lexicon};
use crate::text::lines::{is_number, is_word, name};
use crate::text::rules::Rule;
use crate::text::sections::Keyword;
use crate::text::Grammar;

/// Letters, and pairs, that stand in a line.
const LETTERS_A_LINE: usize = 20;
const PAIRS_A_LINE: usize = 12;

/// The text of a grammar; or what of an image no text can say.
pub fn written(grammar: &Grammar) -> Result<String, String> {
    check(grammar)?;
    let alphabet = &grammar.alphabet;
    let [boundary, null, any] = [BOUNDARY, NULL, ANY].map(|side| alphabet.character(side));
    let mut text = format!("BOUNDARY {boundary}\nNULL {null}\nANY {any}\n\nALPHABET\n");
    let letters: Vec<String> = alphabet.letters().skip(1).map(String::from).collect();
    text += &wrapped(&letters, LETTERS_A_LINE);
    if grammar.form == Form::Two && grammar.has_one_way() {
        text += "\n; Without this line the image would have form 1.\nFORM 2\n";
    }
    for set in grammar.sets.all() {
        let letters: Vec<String> = set.letters.iter().map(|&letter| alphabet.character(letter).to_string()).collect();
        text += &format!("\nSUBSET {}\n{}", set.name, wrapped(&letters, LETTERS_A_LINE));
    }
    let pairs: Vec<String> = grammar.pairs.iter().map(|pair| pair.show(alphabet)).collect();
    text += &format!("\nPAIRS\n{}", wrapped(&pairs, PAIRS_A_LINE));
    let sides = Sides { alphabet, sets: &grammar.sets };
    text.extend(grammar.rules.iter().map(|rule| write_rule(rule, sides)));
    if !grammar.alternations.is_empty() {
        let shown = |ways| grammar.show_ways(ways);
        let lines = grammar.alternations.iter().map(|one| format!("ALTERNATION {} {}\n", one.name, shown(one.ways)));
        text += &format!("\n{}", lines.collect::<String>());
    }
    let mut number = 0;
    for lexicon in &grammar.lexicons {
        text += &write_lexicon(lexicon, number, grammar);
        number += lexicon.entries.len();
    }
    Ok(text + "\nEND\n")
}

/// An image may have letters that divide words, sets without letters, and forms that are keywords.
fn check(grammar: &Grammar) -> Result<(), String> {
    let alphabet = &grammar.alphabet;
    if let Some((number, letter)) = (1..).zip(alphabet.letters()).find(|(_, c)| !is_word(&c.to_string())) {
        return Err(format!("letter {number} is {}, which no text can have for a letter", name(letter)));
    }
    if let Some(set) = grammar.sets.all().iter().find(|set| set.letters.is_empty()) {
        return Err(format!("set {} has no letters, and a text has no such set", set.name));
    }
    let forms = grammar.entries().into_iter().map(|(_, entry)| grammar.show_form(&entry.form)).enumerate();
    match { forms }.find(|(_, form)| Keyword::named(form).is_some()) {
        Some((number, form)) => Err(format!("the form of entry {number} is {form}, which a text takes for a keyword")),
        None => Ok(()),
    }
}

fn wrapped(words: &[String], a_line: usize) -> String {
    words.chunks(a_line).map(|line| format!("  {}\n", line.join(" "))).collect()
}

/// A rule's lines, after an empty one.
pub fn write_rule(rule: &Rule, sides: Sides) -> String {
    let (height, width) = (rule.states.len(), rule.columns.len());
    let mut rows = vec![vec![String::new()], vec![String::new()]];
    rows[0].extend(rule.columns.iter().map(|column| sides.show(column.lexical)));
    rows[1].extend(rule.columns.iter().map(|column| sides.show(column.surface)));
    for (number, state) in (1..).zip(&rule.states) {
        let mark = if state.is_final { ':' } else { '.' };
        let next = state.next.iter().map(u8::to_string);
        rows.push([format!("{number}{mark}")].into_iter().chain(next).collect());
    }
    format!("\nRULE \"{}\" {height} {width}\n{}", rule.name, aligned(&rows))
}

fn write_lexicon(lexicon: &Lexicon, first: usize, grammar: &Grammar) -> String {
    let rows = (first..).zip(&lexicon.entries).map(|(number, entry)| {
        let ways = write_ways(entry, grammar);
        let gloss = match (entry.gloss_text.as_str(), usize::from(entry.gloss)) {
            // A last continuation whose name is a number would be taken for the gloss.
            ("", gloss) if gloss == number && ways.split(' ').skip(1).last().is_some_and(is_number) => {
                "\"\"".to_string()
            }
            ("", gloss) if gloss == number => String::new(),
            ("", gloss) => gloss.to_string(),
            (words, _) => format!("\"{words}\""),
        };
        vec![grammar.show_form(&entry.form), ways, gloss]
    });
    format!("\nLEXICON {}\n{}", lexicon.name, aligned(&rows.collect::<Vec<_>>()))
}

/// The alternation that has just an entry's ways on, where there are several; else each by name.
fn write_ways(entry: &Entry, grammar: &Grammar) -> String {
    let choice = grammar.alternations.iter().find(|one| one.ways == entry.ways && !one.ways.is_one());
    choice.map_or_else(|| grammar.show_ways(entry.ways), |one| one.name.clone())
}

/// Rows of words with each column as wide as its widest word.
fn aligned(rows: &[Vec<String>]) -> String {
    let length = |word: &String| word.chars().count();
    let columns = rows.first().map_or(0, Vec::len);
    let widths: Vec<usize> =
        (0..columns).map(|at| rows.iter().map(|row| length(&row[at])).max().unwrap_or(0)).collect();
    let shown = rows.iter().map(|row| {
        let cells = row.iter().zip(&widths).map(|(word, &width)| format!("{word:width$}"));
        format!("  {}", cells.collect::<Vec<_>>().join(" ")).trim_end().to_string() + "\n"
    });
    shown.collect()
}
