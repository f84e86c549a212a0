//! Accents that stand by themselves are joined with the letter before them.

use super::compositions::{Mark, MARKS};

/// The word with its accents joined, in Unicode's canonical order; none where nothing is joined. A mark that `stays`, since
/// it is a letter of the grammar itself, is joined with nothing.
pub fn composed(word: &str, stays: impl Fn(char) -> bool) -> Option<String> {
    let mut composed = String::with_capacity(word.len());
    let mut characters = word.chars().peekable();
    while let Some(letter) = characters.next() {
        let mut marks = Vec::new();
        while let Some(mark) = characters.peek().copied().filter(|&c| !stays(c)).and_then(mark) {
            marks.push(mark);
            characters.next();
        }
        join(letter, marks, &mut composed);
    }
    (composed != word).then_some(composed)
}

/// A letter that has marks already is taken apart first: ê with a dot below is ẹ with a circumflex.
fn join(letter: char, marks: Vec<&'static Mark>, composed: &mut String) {
    if marks.is_empty() {
        composed.push(letter);
        return;
    }
    let (mut letter, mut all) = apart(letter);
    all.extend(marks);
    if all.iter().all(|mark| mark.class > 0) {
        all.sort_by_key(|mark| mark.class);
    }
    let mut left: Vec<&Mark> = Vec::new();
    for mark in all {
        // A mark that was not joined bars those of its own class, which stand further out.
        let barred = left.last().is_some_and(|last| last.class >= mark.class);
        match joined(letter, mark).filter(|_| !barred) {
            Some(one) => letter = one,
            None => left.push(mark),
        }
    }
    composed.push(letter);
    composed.extend(left.iter().map(|mark| character(mark.point)));
}

/// A letter without its marks.
pub fn plain(letter: char) -> char {
    apart(letter).0
}

/// A letter without its marks, and these, the innermost first.
fn apart(letter: char) -> (char, Vec<&'static Mark>) {
    let found = MARKS.iter().find_map(|mark| {
        let from = mark.joined.iter().find(|&&(_, one)| character(one) == letter);
        from.map(|&(plain, _)| (character(plain), mark))
    });
    match found {
        Some((plain, mark)) => {
            let (plain, mut marks) = apart(plain);
            marks.push(mark);
            (plain, marks)
        }
        None => (letter, Vec::new()),
    }
}

fn mark(character: char) -> Option<&'static Mark> {
    let point = u16::try_from(u32::from(character)).ok()?;
    MARKS.binary_search_by_key(&point, |mark| mark.point).ok().map(|at| &MARKS[at])
}

fn joined(letter: char, mark: &Mark) -> Option<char> {
    let point = u16::try_from(u32::from(letter)).ok()?;
    mark.joined.binary_search_by_key(&point, |&(letter, _)| letter).ok().map(|at| character(mark.joined[at].1))
}

/// The table has no surrogates.
fn character(point: u16) -> char {
    char::from_u32(u32::from(point)).unwrap_or(char::REPLACEMENT_CHARACTER)
}

#[cfg(test)]
mod tests {
    use super::*;

    fn all_composed(word: &str) -> Option<String> {
        composed(word, |_| false)
    }

    #[test]
    fn a_letter_and_its_accent_are_one() {
        assert_eq!(all_composed("a\u{301}rbol").as_deref(), Some("árbol"));
        assert_eq!(all_composed("nin\u{303}o").as_deref(), Some("niño"));
        assert_eq!(all_composed("E\u{301}").as_deref(), Some("É"));
        assert_eq!(all_composed("\u{3c9}\u{313}\u{301}\u{345}").as_deref(), Some("\u{1fa4}"));
        assert_eq!(all_composed("か\u{3099}").as_deref(), Some("が"));
    }

    #[test]
    fn marks_are_joined_in_canonical_order() {
        for word in ["e\u{302}\u{323}", "e\u{323}\u{302}", "ê\u{323}", "ẹ\u{302}"] {
            assert_eq!(all_composed(word).as_deref(), Some("ệ"), "{word}");
        }
        // The circumflex comes first of two marks above a letter; i has none with an acute on it.
        assert_eq!(all_composed("i\u{302}\u{301}").as_deref(), Some("î\u{301}"));
        assert_eq!(all_composed("a\u{302}\u{301}").as_deref(), Some("ấ"));
        assert_eq!(all_composed("a\u{301}\u{302}").as_deref(), Some("á\u{302}"));
    }

    #[test]
    fn what_is_one_character_or_cannot_be_stays() {
        for word in ["", "árbol", "q\u{301}", "\u{301}", "\u{301}a", "a\u{10330}"] {
            assert_eq!(all_composed(word), None, "{word}");
        }
        assert_eq!(composed("a\u{301}e\u{308}", |c| c == '\u{301}').as_deref(), Some("a\u{301}ë"));
    }

    #[test]
    fn a_plain_letter_has_no_marks() {
        assert_eq!(["á", "ệ", "n", "ß"].map(|word| word.chars().map(plain).collect::<String>()), ["a", "e", "n", "ß"]);
    }

    #[test]
    fn the_table_is_in_order() {
        assert!(MARKS.windows(2).all(|two| two[0].point < two[1].point));
        assert!(MARKS.iter().all(|mark| mark.joined.windows(2).all(|two| two[0].0 < two[1].0)));
        assert_eq!(MARKS.iter().map(|mark| mark.joined.len()).sum::<usize>(), 928);
    }
}
