//! The names that an image does not hold, in a file beside it: symbols, sets, rules, alternations, lexicons, and glosses in
//! words.

use crate::checksum::checksum;
use crate::text::alphabet::{Alphabet, ANY, NULL};
use crate::text::alternations::Alternation;
use crate::text::limits;
use crate::text::lines::{decode, number, one_character, split, Line, Word};
use crate::text::sections::Keyword;
use crate::text::ways::Ways;
use crate::text::{Fault, Grammar};
use std::collections::HashSet;
use std::path::{Path, PathBuf};

/// `IMAGE.names`, beside the file itself where the image is a link to it.
pub fn names_path(image: &Path) -> PathBuf {
    let is_link = image.symlink_metadata().is_ok_and(|found| found.is_symlink());
    let place = if is_link { image.canonicalize().ok() } else { None };
    let mut path = place.unwrap_or(image.to_path_buf()).into_os_string();
    path.push(".names");
    PathBuf::from(path)
}

/// The names of a grammar, for its image. Sets, rules and lexicons stand in the order of their numbers.
pub fn write_names(grammar: &Grammar, image: &[u8]) -> String {
    let mut text = format!("; The names of a grammar image.\nCKSUM {}\n", checksum(image));
    text += &format!("NULL {}\nANY {}\n", grammar.alphabet.character(NULL), grammar.alphabet.character(ANY));
    text.extend(grammar.sets.all().iter().map(|set| format!("SUBSET {}\n", set.name)));
    text.extend(grammar.rules.iter().map(|rule| format!("RULE \"{}\"\n", rule.name)));
    text.extend(grammar.lexicons.iter().map(|lexicon| format!("LEXICON {}\n", lexicon.name)));
    let choices = grammar.alternations.iter();
    text.extend(choices.map(|one| format!("ALTERNATION {} {}\n", one.name, grammar.show_ways(one.ways))));
    for (number, (_, entry)) in grammar.entries().into_iter().enumerate() {
        if !entry.gloss_text.is_empty() {
            text += &format!("GLOSS {number} \"{}\"\n", entry.gloss_text);
        }
    }
    text
}

/// What a file of names says.
#[derive(Debug, Default)]
struct Names<'a> {
    sum: &'a str,
    null: Option<char>,
    any: Option<char>,
    sets: Vec<&'a str>,
    rules: Vec<&'a str>,
    lexicons: Vec<&'a str>,
    /// Each alternation's name, and what it names.
    alternations: Vec<(&'a str, Vec<&'a str>)>,
    glosses: Vec<(usize, &'a str)>,
}

/// Gives the grammar of an image its names. Where they are not its own, or not as they are written, none is given.
pub fn name_grammar(grammar: &mut Grammar, image: &[u8], bytes: &[u8]) -> Result<(), Fault> {
    let lines = split(decode(bytes)?).map_err(|faults| faults.by_line().remove(0))?;
    let mut names = Names::default();
    for line in &lines {
        read_line(&mut names, line)?;
    }
    let sum = checksum(image).to_string();
    if names.sum.is_empty() {
        return Err(Fault::new(0, "CKSUM is missing"));
    }
    if names.sum != sum {
        let what = format!("names of another image: its cksum is {}, and this image's {sum}", names.sum);
        return Err(Fault::new(0, what));
    }
    check(&names, grammar).map_err(|what| Fault::new(0, what))?;
    give(names, grammar);
    Ok(())
}

fn read_line<'a>(names: &mut Names<'a>, line: &Line<'a>) -> Result<(), Fault> {
    match line.words[..] {
        [Word::Bare("CKSUM"), Word::Bare(sum)] => names.sum = sum,
        [Word::Bare("NULL"), Word::Bare(null)] => names.null = one_character(null),
        [Word::Bare("ANY"), Word::Bare(any)] => names.any = one_character(any),
        [Word::Bare("SUBSET"), Word::Bare(name)] => names.sets.push(name),
        [Word::Bare("RULE"), Word::Quoted(name)] => names.rules.push(name),
        [Word::Bare("LEXICON"), Word::Bare(name)] => names.lexicons.push(name),
        [Word::Bare("ALTERNATION"), Word::Bare(name), ref ways @ ..] if ways.iter().all(|way| way.bare().is_some()) => {
            names.alternations.push((name, ways.iter().map(|way| way.text()).collect()));
        }
        [Word::Bare("GLOSS"), Word::Bare(entry), Word::Quoted(gloss)] if number(entry).is_some() => {
            names.glosses.push((number(entry).unwrap_or(0), gloss));
        }
        _ => return Err(Fault::new(line.number, "this names nothing")),
    }
    Ok(())
}

/// Names have to be such as a text may have, or the grammar could not be written as one.
fn check(names: &Names, grammar: &Grammar) -> Result<(), String> {
    let (Some(null), Some(any)) = (names.null, names.any) else {
        return Err("NULL or ANY is missing, or is not one character".to_string());
    };
    let letters: Vec<char> = grammar.alphabet.letters().collect();
    let fits = |c: char| u32::from(c) <= limits::CODE_POINT && !letters.contains(&c);
    if null == any || !fits(null) || !fits(any) {
        return Err("NULL or ANY is a letter, or they are the same".to_string());
    }
    let counts = [
        ("SUBSET", names.sets.len(), grammar.sets.all().len()),
        ("RULE", names.rules.len(), grammar.rules.len()),
        ("LEXICON", names.lexicons.len(), grammar.lexicons.len()),
    ];
    if let Some((keyword, found, right)) = counts.into_iter().find(|(_, found, right)| found != right) {
        return Err(format!("{found} times {keyword}, where the image has {right}"));
    }
    let is_symbol = |name: &str| one_character(name).is_some_and(|c| c == null || c == any || letters.contains(&c));
    let is_end = |name: &str| one_character(name).is_some_and(|c| c == letters[0]);
    check_names(&names.sets, is_symbol)?;
    check_names(&names.lexicons, is_end)?;
    check_alternations(names, is_end)?;
    check_glosses(names, grammar)
}

fn check_names(names: &[&str], is_taken: impl Fn(&str) -> bool) -> Result<(), String> {
    for (at, name) in names.iter().enumerate() {
        if Keyword::named(name).is_some() || is_taken(name) || names[..at].contains(name) {
            return Err(format!("{name} cannot be the name of set or lexicon {at}"));
        }
    }
    Ok(())
}

/// An alternation has a name that nothing else has, and names lexicons or the end, each once.
fn check_alternations(names: &Names, is_end: impl Fn(&str) -> bool) -> Result<(), String> {
    for (at, (name, ways)) in names.alternations.iter().enumerate() {
        let is_second =
            names.lexicons.contains(name) || names.alternations[..at].iter().any(|(other, _)| other == name);
        if Keyword::named(name).is_some() || is_end(name) || is_second {
            return Err(format!("{name} cannot be the name of an ALTERNATION"));
        }
        let is_way =
            |at: usize| (is_end(ways[at]) || names.lexicons.contains(&ways[at])) && !ways[..at].contains(&ways[at]);
        if ways.is_empty() || !(0..ways.len()).all(is_way) {
            return Err(format!("ALTERNATION {name} does not name lexicons, each once"));
        }
    }
    Ok(())
}

/// A gloss in words has the number of its entry.
fn check_glosses(names: &Names, grammar: &Grammar) -> Result<(), String> {
    let entries = grammar.entries();
    let has_own = |number: usize| entries.get(number).is_some_and(|(_, entry)| usize::from(entry.gloss) == number);
    let mut seen = HashSet::new();
    for &(number, _) in &names.glosses {
        if !has_own(number) {
            return Err(format!("there is no entry {number} with a gloss in words"));
        }
        if !seen.insert(number) {
            return Err(format!("entry {number} has two glosses"));
        }
    }
    Ok(())
}

fn give(names: Names, grammar: &mut Grammar) {
    let letters: Vec<char> = grammar.alphabet.letters().collect();
    if let (Some(null), Some(any)) = (names.null, names.any) {
        grammar.alphabet = Alphabet::of(&letters, null, any);
    }
    for (set, name) in grammar.sets.all_mut().iter_mut().zip(names.sets) {
        set.name = name.to_string();
    }
    for (rule, name) in grammar.rules.iter_mut().zip(names.rules) {
        rule.name = name.to_string();
    }
    for (name, ways) in &names.alternations {
        // What is no lexicon is the end.
        let way = |word: &str| match names.lexicons.iter().position(|lexicon| *lexicon == word) {
            Some(number) => Ways::to(number as u8),
            None => Ways::END,
        };
        let ways = ways.iter().fold(Ways::default(), |ways, word| ways.and(way(word)));
        grammar.alternations.push(Alternation { name: name.to_string(), ways, is_named: true, line: 0 });
    }
    for (lexicon, name) in grammar.lexicons.iter_mut().zip(names.lexicons) {
        lexicon.name = name.to_string();
    }
    let mut entries: Vec<_> = grammar.lexicons.iter_mut().flat_map(|lexicon| &mut lexicon.entries).collect();
    for (number, gloss) in names.glosses {
        entries[number].gloss_text = gloss.to_string();
    }
    grammar.named = true;
}
