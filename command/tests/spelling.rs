//! Over every choice of pairs of two letters, the command names just the entries that the check refuses with 14.

mod support;

use support::assembled;
use support::check::{refusal, seal};

const PAIRS: [&str; 8] = ["a:a", "a:b", "a:0", "b:a", "b:b", "b:0", "0:a", "0:b"];

/// Forms as the text writes them, and their letters by number.
const FORMS: [(&str, &[u8]); 7] =
    [("0", &[]), ("a", &[2]), ("b", &[3]), ("aa", &[2, 2]), ("ab", &[2, 3]), ("ba", &[3, 2]), ("bb", &[3, 3])];

/// Every choice of one pair or more.
fn choices() -> impl Iterator<Item = Vec<&'static str>> {
    let chosen = |choice: usize| (0..PAIRS.len()).filter(move |k| choice >> k & 1 == 1).map(|k| PAIRS[k]);
    (1..1 << PAIRS.len()).map(move |choice| chosen(choice).collect())
}

/// A grammar whose entries stand in lines 7, 8, ..
fn text(pairs: &[&str], forms: &[&str]) -> String {
    let (pairs, entries) = (pairs.join(" "), forms.join(" #\n"));
    format!("BOUNDARY #\nNULL 0\nANY @\nALPHABET a b\nPAIRS {pairs}\nLEXICON x\n{entries} #\nEND\n")
}

/// The image of one empty form with another written into it, so that a refused text has an image too.
fn written(empty: &[u8], letters: &[u8]) -> Vec<u8> {
    let mut image = empty.to_vec();
    let entry = &mut image[4 * 512 + 4..];
    entry[0] = letters.len() as u8;
    entry[1..][..letters.len()].copy_from_slice(letters);
    seal(&mut image);
    image
}

#[test]
fn just_the_entries_that_14_refuses_are_named() {
    let mut refused = 0;
    for pairs in choices() {
        let empty = assembled(&text(&pairs, &["0"])).unwrap();
        let mut named = Vec::new();
        for (line, (form, letters)) in (7..).zip(FORMS) {
            let image = written(&empty, letters);
            let verdict = refusal(&image);
            match assembled(&text(&pairs, &[form])) {
                Ok(found) => assert!(found == image && verdict.is_none(), "{pairs:?} {form}: {verdict:?}"),
                Err(faults) => {
                    assert_eq!((faults.len(), faults[0].line, verdict), (1, 7, Some(14)), "{pairs:?} {form}");
                    named.push(line);
                }
            }
        }
        let together = assembled(&text(&pairs, &FORMS.map(|(form, _)| form))).err().unwrap_or_default();
        assert_eq!(together.iter().map(|fault| fault.line).collect::<Vec<_>>(), named, "{pairs:?}");
        refused += named.len();
    }
    // 31 choices have no a on a lexical side, 31 no b, 3 neither. So a, aa, b and bb are refused 31 times each, ab and ba 59 times each.
    assert_eq!(refused, 4 * 31 + 2 * (31 + 31 - 3));
}
