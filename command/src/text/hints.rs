//! What was likely meant where a text has a fault: the ends of messages.

use crate::text::alphabet::{Alphabet, ANY, BOUNDARY, NULL};
use crate::text::lines::{name, one_character, Word};
use crate::text::sections::Keyword;
use crate::words::composed;

/// Characters that look like others: each with the one that it may be taken for.
const ALIKE: [(&str, &str); 3] = [
    ("авеԁһіјӏкмнорѕтухАВЕЅІЈКМНОРСТУХс", "abedhijlkmhopstyxABESIJKMHOPCTYXc"),
    ("αβνορυχΑΒΕΖΗΙΚΜΝΟΡΤΥΧι", "abvopuxABEZHIKMNOPTYXi"),
    ("ı’‘–—−", "i''---"),
];
/// Keys that lie or look close to each other.
const DIGITS: [(char, &str); 2] = [('0', "Oo"), ('1', "lI")];

/// What other grammars write for the null, for any letter, and for the boundary.
const SYMBOLS: [(&str, u8, &str); 3] =
    [("0Øø∅ε", NULL, "the null"), ("@?*", ANY, "any letter"), ("#$|", BOUNDARY, "the boundary")];

/// What a character may stand for that is no letter of the alphabet.
pub fn letter_meant(character: char, alphabet: &Alphabet) -> String {
    let is_letter = |c: &char| alphabet.number(*c).is_some();
    if let Some(meant) = character.to_lowercase().chain(character.to_uppercase()).find(is_letter) {
        return format!("; is {} meant?", name(meant));
    }
    if let Some(meant) = looks_like(character).filter(is_letter) {
        return format!("; it looks like {}", name(meant));
    }
    for (digit, others) in DIGITS {
        if others.contains(character) && alphabet.side(digit) == Some(NULL) {
            return format!("; is {digit}, the null, meant?");
        }
        let keys = || others.chars().chain([digit]);
        if let Some(meant) = keys().find(is_letter).filter(|_| keys().any(|key| key == character)) {
            return format!("; is {} meant?", name(meant));
        }
    }
    let symbol = SYMBOLS.iter().find(|(these, ..)| these.contains(character));
    symbol.map_or(String::new(), |(_, side, what)| format!("; {what} is written {}", alphabet.character(*side)))
}

fn looks_like(character: char) -> Option<char> {
    ALIKE.iter().find_map(|(these, those)| {
        let at = these.chars().position(|c| c == character)?;
        those.chars().nth(at)
    })
}

/// An accent with a code point of its own, where the letter with it is one character.
pub fn accent_meant(text: &str) -> String {
    let Some(joined) = composed(text, |_| false) else {
        return String::new();
    };
    let count = |text: &str, c: char| text.chars().filter(|&other| other == c).count();
    let mut shown: Vec<String> = joined.chars().filter(|&c| count(&joined, c) > count(text, c)).map(name).collect();
    shown.dedup();
    format!("; as one character it is {}", shown.join(", "))
}

/// What a word that is not one letter may be.
pub fn one_letter_meant(text: &str) -> String {
    if Keyword::named(text).is_some() {
        return format!("; {text} is a keyword, which begins a line of its own");
    }
    if text.contains(',') {
        return "; letters are divided by blanks alone".to_string();
    }
    if text.contains(':') {
        return "; pairs stand under PAIRS".to_string();
    }
    match accent_meant(text) {
        none if none.is_empty() => "; is a blank missing?".to_string(),
        accent => accent,
    }
}

/// What a word that is no pair may be.
pub fn pair_meant(word: Word, alphabet: &Alphabet) -> String {
    let Word::Bare(text) = word else {
        return "; take the quotation marks away".to_string();
    };
    if Keyword::named(text).is_some() {
        return format!("; {text} is a keyword, which begins a line of its own");
    }
    let joined = composed(text, |_| false);
    let characters: Vec<char> = joined.as_deref().unwrap_or(text).chars().collect();
    let null = alphabet.character(NULL);
    match characters[..] {
        [_, ':', _] => accent_meant(text),
        [one] => format!("; is {one}:{one} meant?"),
        [':', surface] => format!("; is {null}:{surface} meant?"),
        [lexical, ':'] => format!("; is {lexical}:{null} meant?"),
        [lexical, surface] => format!("; is {lexical}:{surface} meant?"),
        [lexical, between, surface] if !between.is_alphanumeric() => format!("; is {lexical}:{surface} meant?"),
        _ if text.contains(',') => "; pairs are divided by blanks alone".to_string(),
        _ if text.matches(':').count() > 1 => "; is a blank missing?".to_string(),
        _ => "; each side is one character".to_string(),
    }
}

/// A quotation mark that a word processor has made pretty.
pub fn quote_meant(words: &[Word]) -> Option<String> {
    let pretty = ['“', '”', '„', '«', '»', '‘', '’', '\''];
    let found = words.iter().filter_map(|word| word.bare()).flat_map(str::chars).find(|c| pretty.contains(c))?;
    Some(format!("; {} is not the plain quotation mark, \"", name(found)))
}

/// A letter that may stand for a digit.
pub fn digit_meant(text: &str) -> String {
    let meant = one_character(text).and_then(|c| DIGITS.iter().find(|(_, others)| others.contains(c)));
    meant.map_or(String::new(), |(digit, _)| format!("; is the digit {digit} meant?"))
}

#[cfg(test)]
mod tests {
    use super::{looks_like, ALIKE};

    #[test]
    fn each_character_that_looks_like_another_has_it_beside_it() {
        for (these, those) in ALIKE {
            assert_eq!(these.chars().count(), those.chars().count());
            assert!(these.chars().all(|c| !c.is_ascii()) && those.is_ascii());
        }
        let pairs = [('а', 'a'), ('с', 'c'), ('Х', 'X'), ('ο', 'o'), ('Ζ', 'Z'), ('ı', 'i'), ('−', '-')];
        assert!(pairs.into_iter().all(|(one, other)| looks_like(one) == Some(other)));
        assert_eq!(looks_like('a'), None);
    }
}
