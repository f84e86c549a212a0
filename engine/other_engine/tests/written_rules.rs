//! Written rules: contexts mean what the document says of their parts, each test refuses at its edge, and rules are kept or broken as by hand.

use other_engine::calls::{judge_rules, Known};
use other_engine::contexts::Context;
use other_engine::draft::{Draft, DraftEntry};
use other_engine::image::read;
use other_engine::written_rules;

/// What a context says, part by part.
#[derive(Clone)]
enum Tree {
    Pair(u16),
    Any,
    Star(Box<Tree>),
    Sequence(Box<Tree>, Box<Tree>),
    Either(Box<Tree>, Box<Tree>),
}

impl Tree {
    /// Whether a run matches, by the document's words alone.
    fn matches(&self, run: &[u16]) -> bool {
        let parts = |least: usize| (least..=run.len()).map(|at| run.split_at(at));
        match self {
            Tree::Pair(number) => run == [*number],
            Tree::Any => run.len() == 1,
            Tree::Star(inner) => {
                run.is_empty()
                    || parts(1).any(|(one, rest)| inner.matches(one) && self.matches(rest))
            }
            Tree::Sequence(one, other) => {
                parts(0).any(|(first, rest)| one.matches(first) && other.matches(rest))
            }
            Tree::Either(one, other) => one.matches(run) || other.matches(run),
        }
    }

    /// The text, with brackets only where a part binds less tightly than its place asks: 0 a side of a bar, 1 a part of a sequence, 2 under a star.
    fn text(&self, place: usize) -> String {
        let (binds, text) = match self {
            Tree::Pair(number) => (2, format!("{number:03}")),
            Tree::Any => (2, ".".to_string()),
            Tree::Star(inner) => (2, inner.text(2) + "*"),
            Tree::Sequence(one, other) => (1, one.text(1) + &other.text(1)),
            Tree::Either(one, other) => (0, one.text(0) + "|" + &other.text(0)),
        };
        if binds < place {
            format!("({text})")
        } else {
            text
        }
    }
}

/// All trees of so many parts over pairs 0 and 1, the boundary and any.
fn trees(parts: usize) -> Vec<Tree> {
    if parts == 1 {
        return vec![Tree::Pair(0), Tree::Pair(1), Tree::Pair(255), Tree::Any];
    }
    let stars = trees(parts - 1).into_iter().map(Box::new).map(Tree::Star);
    let mut all: Vec<Tree> = stars.collect();
    for first in 1..parts - 1 {
        for one in trees(first) {
            for other in trees(parts - 1 - first) {
                let sides = || (Box::new(one.clone()), Box::new(other.clone()));
                all.push(Tree::Sequence(sides().0, sides().1));
                all.push(Tree::Either(sides().0, sides().1));
            }
        }
    }
    all
}

/// All runs of at most so many pairs.
fn runs(most: usize) -> Vec<Vec<u16>> {
    let mut all = vec![Vec::new()];
    let mut from = 0;
    for _ in 0..most {
        let until = all.len();
        for place in from..until {
            for pair in [0, 1, 2, 255] {
                let mut longer = all[place].clone();
                longer.push(pair);
                all.push(longer);
            }
        }
        from = until;
    }
    all
}

#[test]
fn contexts_match_as_their_parts_do() {
    let runs = runs(4);
    for tree in (1..=5).flat_map(trees) {
        let text = tree.text(0);
        let context = Context::read(text.as_bytes()).expect("a tree is of the grammar");
        for run in &runs {
            let matched = context.matched(run)[run.len()];
            assert_eq!(matched, tree.matches(run), "{text} {run:?}");
        }
    }
}

#[test]
fn a_star_ends_however_stars_are_nested() {
    let nested = format!("{}.{}", "(".repeat(8), "*)".repeat(8));
    let texts = [
        nested.clone() + "*",
        nested + "255",
        ".".to_string() + &"*".repeat(63),
    ];
    for text in texts {
        let context = Context::read(text.as_bytes()).expect("a context");
        assert_eq!(context.matched(&[0; 42]).len(), 43);
    }
}

#[test]
fn contexts_that_are_none() {
    let none = [
        "*", "**", "*.", "(*)", "(*.)", ".|*", "|", "|.", ".|", ".||.", "(|.)", "(.|)", "()",
        "()*", ".()", "(", ")", "(.", ".)", ")(", "0", "00", "0.0", "00 ", "00.", "0000", "00000",
        "a", "-01", "+01", "0*0", ". .", " ", "?", "[.]", "_", "(.))", "((.)",
    ];
    for text in none {
        assert!(Context::read(text.as_bytes()).is_none(), "{text}");
    }
    let some = [
        "",
        ".",
        "...",
        "000",
        "000001",
        ".**",
        "(.)",
        "((.))",
        ".|.",
        ".|.|.",
        "(.|.).",
        ".*.*",
        "(.*)*",
        "999",
        "255*",
        "(000.|255)**",
    ];
    for text in some {
        assert!(Context::read(text.as_bytes()).is_some(), "{text}");
    }
}

#[test]
fn a_context_has_64_bytes_and_depth_8() {
    let is_read = |text: String| Context::read(text.as_bytes()).is_some();
    let nested = |depth: usize| format!("{}.{}", "(".repeat(depth), ")".repeat(depth));
    for (length, fits) in [(63, true), (64, true), (65, false), (66, false)] {
        assert_eq!(is_read(".".repeat(length)), fits);
        assert_eq!(is_read(".".to_string() + &"*".repeat(length - 1)), fits);
        assert_eq!(is_read("000".repeat(20) + &".".repeat(length - 60)), fits);
    }
    for (depth, fits) in [(7, true), (8, true), (9, false), (10, false)] {
        assert_eq!(is_read(nested(depth)), fits);
        assert_eq!(is_read(nested(2) + &nested(depth)), fits);
    }
    // Closed brackets count no more.
    assert!(is_read("(.)".repeat(21)));
}

/// Letters # t c i s; pairs t:c, t:t, i:i, s:s, and the insertions 0:i and 0:s.
fn t_c() -> Known {
    let draft = Draft {
        image_form: 1,
        letters: "#tcis".bytes().map(u16::from).collect(),
        pairs: vec![(2, 3), (2, 2), (4, 4), (5, 5), (0, 4), (0, 5)],
        sets: Vec::new(),
        tables: Vec::new(),
        lexicons: vec![vec![DraftEntry::with_one_way(vec![2], 255, 0)]],
    };
    read(&draft.image())
}

fn reply(pairing: &[u8], text: &str) -> Result<bool, u8> {
    judge_rules(&t_c(), pairing, text.as_bytes())
}

#[test]
fn t_c_before_i_has_its_four_facts() {
    let rule = "<=> 000 _002\n";
    assert_eq!(reply(&[0, 2], rule), Ok(true));
    assert_eq!(reply(&[1, 2], rule), Ok(false));
    assert_eq!(reply(&[0], rule), Ok(false));
    assert_eq!(reply(&[1], rule), Ok(true));
    // Each half alone.
    assert_eq!(reply(&[1, 2], "=> 000 _002"), Ok(true));
    assert_eq!(reply(&[0], "<= 000 _002"), Ok(true));
    assert_eq!(reply(&[0], "=> 000 _002"), Ok(false));
    assert_eq!(reply(&[1, 2], "<= 000 _002"), Ok(false));
    // Another lexical letter is no matter of <=, and the same pair elsewhere none of /<=.
    assert_eq!(reply(&[2, 2, 3, 2], "<= 000 _002"), Ok(true));
    assert_eq!(reply(&[0, 3, 1, 2], "/<= 000 _002"), Ok(true));
    assert_eq!(reply(&[0, 3, 0, 2], "/<= 000 _002"), Ok(false));
}

#[test]
fn the_null_counts_as_a_lexical_letter() {
    assert_eq!(reply(&[3, 4], "<= 004 003_"), Ok(true));
    assert_eq!(reply(&[3, 5], "<= 004 003_"), Ok(false));
    assert_eq!(reply(&[3, 2], "<= 004 003_"), Ok(true));
    assert_eq!(reply(&[2, 5], "<= 004 003_"), Ok(true));
}

#[test]
fn the_boundary_pair_stands_at_both_ends() {
    for (context, holds) in [
        ("255_", true),
        ("_255", false),
        ("255_..255", true),
        ("255255_", false),
        ("._", true),
        ("_255255", false),
    ] {
        let rule = format!("=> 000 {context}");
        assert_eq!(reply(&[0, 2, 2], &rule), Ok(holds), "{rule}");
    }
    for (context, holds) in [
        ("_255", true),
        ("255_", false),
        ("255.._255", true),
        ("..._", true),
        ("...._", false),
        ("_.", true),
        ("_..", false),
    ] {
        let rule = format!("=> 000 {context}");
        assert_eq!(reply(&[2, 2, 0], &rule), Ok(holds), "{rule}");
    }
    // The ends are no places that a rule is asked at.
    assert_eq!(reply(&[2], "/<= 000 _"), Ok(true));
}

#[test]
fn texts_of_rules() {
    let rule = "=> 000 _002";
    let many = |count: usize| vec![rule; count].join("\n");
    assert_eq!(reply(&[0], ""), Ok(true));
    assert_eq!(reply(&[0, 2], &many(32)), Ok(true));
    assert_eq!(reply(&[0, 2], &(many(32) + "\n")), Ok(true));
    assert_eq!(reply(&[0, 2], &many(33)), Err(19));
    assert_eq!(reply(&[0, 2], &(many(31) + "\n/<= 000 _")), Ok(false));
    let refused = [
        "\n",
        "\n\n",
        "=> 000 _\n\n",
        "\n=> 000 _",
        "=> 000 _\n\n=> 000 _",
        "=> 000 _\r\n",
        "=> 000",
        "=> 000 ",
        "=> 000 ..",
        "=> 000 _._",
        " => 000 _",
        "=>  000 _",
        "=> 000  _",
        "=> 000_",
        "=>000 _",
        "000 _",
        "= 000 _",
        "<=>> 000 _",
        "/=> 000 _",
        "=> 00 _",
        "=> 0000 _",
        "=> _",
        "=> 000 _ ",
    ];
    for text in refused {
        assert_eq!(reply(&[0], text), Err(19), "{text:?}");
    }
}

#[test]
fn refusals_come_in_order() {
    for number in ["006", "249", "250", "254", "256", "999"] {
        for rule in [
            format!("=> {number} _"),
            format!("=> 000 {number}_"),
            format!("=> 000 _(.|{number})*"),
        ] {
            assert_eq!(reply(&[0], &rule), Err(20), "{rule}");
            assert_eq!(reply(&[6], &rule), Err(13));
            assert_eq!(reply(&[0], &(rule.clone() + "\n=> 000 _()")), Err(19));
            assert_eq!(reply(&[0], &("=> 000 _\n".to_string() + &rule)), Err(20));
        }
    }
    assert_eq!(reply(&[0], "=> 255 _"), Err(20));
    assert_eq!(reply(&[0], "=> 000 255_"), Ok(true));
    assert_eq!(reply(&[], "*"), Err(13));
    assert_eq!(reply(&[0; 41], "*"), Err(13));
    assert_eq!(reply(&[0; 40], "=> 005 _"), Ok(true));
    assert_eq!(judge_rules(&Err(14), &[], b"*"), Err(14));
    assert!(written_rules::read(b"=> 000 _").is_some());
}
