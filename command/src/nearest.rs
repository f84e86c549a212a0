//! The name that a misspelled word is a slip of.

/// The name with fewest changes from a word: none counted for capitals and small letters, at most two, and one in a word of
/// two or three characters.
pub fn nearest<'a>(word: &str, names: impl Iterator<Item = &'a str>) -> Option<&'a str> {
    let most = match word.chars().count() {
        0 | 1 => 0,
        2 | 3 => 1,
        _ => 2,
    };
    let low = word.to_lowercase();
    let length = low.chars().count();
    // A change makes a word longer or shorter by one at most, which spares most names the counting.
    let others = names.filter(|name| name.chars().count().abs_diff(length) <= most && *name != word);
    let counted = others.map(|name| (changes(&low, &name.to_lowercase()), name));
    counted.filter(|&(changes, _)| changes <= most).min().map(|(_, name)| name)
}

/// `; is X meant?`, where there is an X.
pub fn is_meant(name: Option<&str>) -> String {
    name.map_or(String::new(), |name| format!("; is {name} meant?"))
}

/// How many characters have to be put in, taken away, changed, or swapped with the next, to make one word the other.
fn changes(one: &str, other: &str) -> usize {
    let (one, other): (Vec<char>, Vec<char>) = (one.chars().collect(), other.chars().collect());
    let mut rows: Vec<Vec<usize>> = vec![(0..=other.len()).collect()];
    for i in 1..=one.len() {
        let mut row = vec![i];
        for j in 1..=other.len() {
            let same = usize::from(one[i - 1] != other[j - 1]);
            let mut least = (rows[i - 1][j - 1] + same).min(rows[i - 1][j] + 1).min(row[j - 1] + 1);
            if i > 1 && j > 1 && one[i - 1] == other[j - 2] && one[i - 2] == other[j - 1] {
                least = least.min(rows[i - 2][j - 2] + 1);
            }
            row.push(least);
        }
        rows.push(row);
    }
    rows[one.len()][other.len()]
}

#[cfg(test)]
mod tests {
    use super::{changes, nearest};

    #[test]
    fn changes_are_counted() {
        let counts = [
            ("", "", 0),
            ("abc", "abc", 0),
            ("abc", "ac", 1),
            ("ac", "abc", 1),
            ("abc", "axc", 1),
            ("abc", "acb", 1),
            ("abc", "", 3),
            ("noun", "verb", 4),
        ];
        for (one, other, count) in counts {
            assert_eq!(changes(one, other), count, "{one} {other}");
        }
    }

    #[test]
    fn a_name_is_near_by_two_changes_at_most() {
        let names = || ["Noun1", "Noun2", "Verb", "A"].into_iter();
        for (word, near) in [
            ("Nuon2", Some("Noun2")),
            ("NOUN1", Some("Noun1")),
            ("verb", Some("Verb")),
            ("Vrb", Some("Verb")),
            ("Vb", None),
            ("Adverbs", None),
            ("a", Some("A")),
            ("A", None),
        ] {
            assert_eq!(nearest(word, names()), near, "{word}");
        }
    }
}
