//! Replies are counted by kind of call, so that a run shows what it has met and what it has not.

use crate::ruled::{self, Judged};
use crate::{converted, many, reached, spelled};
use other_engine::{Grammar, Reading};
use std::fmt::Write;

/// A kind of call.
#[derive(Clone, Copy, PartialEq, Eq, Debug)]
pub enum Kind {
    Analyse,
    Generate,
    Check,
    Seal,
    Judge,
    Form,
    Spell,
    Words,
    Rules,
    Convert,
}

const KINDS: [(Kind, &str); 10] = [
    (Kind::Analyse, "analyse"),
    (Kind::Generate, "generate"),
    (Kind::Check, "check"),
    (Kind::Seal, "seal"),
    (Kind::Judge, "judge"),
    (Kind::Form, "form"),
    (Kind::Spell, "spell"),
    (Kind::Words, "analyse_words"),
    (Kind::Rules, "judge_rules"),
    (Kind::Convert, "convert"),
];

impl Kind {
    /// The name of the call.
    pub fn name(self) -> &'static str {
        KINDS[self as usize].1
    }

    /// What the remainders 0, 1 and 2 of a reply mean, where they can occur.
    fn replies(self) -> [Option<&'static str>; 3] {
        match self {
            Kind::Analyse | Kind::Generate => [Some("none"), Some("all"), Some("more")],
            Kind::Check => [None, Some("accepted"), None],
            Kind::Seal => [None, Some("sealed"), None],
            Kind::Judge | Kind::Rules => [Some("fails"), Some("holds"), None],
            Kind::Form => [None, Some("letters"), Some("short")],
            Kind::Spell => [None, Some("spelled"), None],
            Kind::Words => [None, Some("answered"), None],
            Kind::Convert => [None, Some("converted"), None],
        }
    }

    /// The refusals that can occur, in the order of their tests.
    fn refusals(self) -> Vec<usize> {
        let own: &[usize] = match self {
            Kind::Analyse => &[9, 10],
            Kind::Generate => &[11, 12],
            Kind::Judge => &[11, 12, 13],
            Kind::Rules => &[13, 19, 20],
            Kind::Form => &[12],
            Kind::Spell => &[9, 23, 24],
            Kind::Check | Kind::Words => &[],
            Kind::Convert => &[15, 16, 17],
            Kind::Seal => return vec![1],
        };
        (1..=8).chain([14]).chain(own.iter().copied()).collect()
    }
}

/// How many replies of each kind of call have been met, how many listings by each with a row at a limit, and how many spellings, calls with many words,
/// texts of rules and conversions of each sort.
pub struct Tally {
    replies: [[u64; 3]; KINDS.len()],
    refusals: [[u64; 25]; KINDS.len()],
    limits: [[u64; reached::LIMITS.len()]; 2],
    spellings: [u64; spelled::SORTS.len()],
    many: [u64; many::SORTS.len()],
    rules: [u64; ruled::SORTS.len()],
    conversions: [u64; converted::SORTS.len()],
}

impl Default for Tally {
    fn default() -> Tally {
        Tally {
            replies: [[0; 3]; KINDS.len()],
            refusals: [[0; 25]; KINDS.len()],
            limits: [[0; reached::LIMITS.len()]; 2],
            spellings: [0; spelled::SORTS.len()],
            many: [0; many::SORTS.len()],
            rules: [0; ruled::SORTS.len()],
            conversions: [0; converted::SORTS.len()],
        }
    }
}

impl Tally {
    /// Counts one reply.
    pub fn count(&mut self, kind: Kind, reply: u64) {
        match reply % 4 {
            3 => self.refusals[kind as usize][(reply / 4) as usize] += 1,
            other => self.replies[kind as usize][other as usize] += 1,
        }
    }

    /// Counts the limits that the rows written by a listing reach.
    pub fn count_limits(&mut self, kind: Kind, grammar: &Grammar, rows: &[Reading]) {
        let met = reached::limits(grammar, rows);
        for (count, limit) in self.limits[kind as usize].iter_mut().zip(reached::LIMITS) {
            *count += u64::from(met.contains(&limit));
        }
    }

    /// Counts the sorts that a conversion is of, by an accepted image.
    pub fn count_conversion(&mut self, sorts: &[&str]) {
        for (count, sort) in self.conversions.iter_mut().zip(converted::SORTS) {
            *count += u64::from(sorts.contains(&sort));
        }
    }

    /// Counts the sorts that a spelling is of, by an accepted image, into so many bytes.
    pub fn count_spelling(&mut self, grammar: &Grammar, points: &[u8], room: usize) {
        let met = spelled::sorts(grammar, points, room);
        for (count, sort) in self.spellings.iter_mut().zip(spelled::SORTS) {
            *count += u64::from(met.contains(&sort));
        }
    }

    /// Counts the sorts that a call with many words is of, by an accepted image, which left these replies, with so many bytes of rows.
    pub fn count_words(&mut self, words: &[u8], replies: &[u8], room: usize) {
        let met = many::sorts(words, replies, room);
        for (count, sort) in self.many.iter_mut().zip(many::SORTS) {
            *count += u64::from(met.contains(&sort));
        }
    }

    /// Counts the sorts that a text of rules is of, by an accepted image.
    pub fn count_rules(&mut self, judged: &Judged) {
        let met = judged.sorts();
        for (count, sort) in self.rules.iter_mut().zip(ruled::SORTS) {
            *count += u64::from(met.contains(&sort));
        }
    }

    /// All calls of a kind.
    fn calls(&self, kind: Kind) -> u64 {
        let k = kind as usize;
        self.replies[k].iter().sum::<u64>() + self.refusals[k].iter().sum::<u64>()
    }

    /// What has been met, on one line.
    pub fn line(&self) -> String {
        let mut line = String::new();
        for (kind, name) in KINDS {
            let _ = write!(line, "; {name} {}:", self.calls(kind));
            for (place, reply) in kind.replies().iter().enumerate() {
                if let Some(reply) = reply {
                    let _ = write!(line, " {reply} {}", self.replies[kind as usize][place]);
                }
            }
            line.push_str(" refused");
            for k in kind.refusals() {
                let _ = write!(line, " {k}:{}", self.refusals[kind as usize][k]);
            }
        }
        for (counts, (_, name)) in self.limits.iter().zip(KINDS) {
            let _ = write!(line, "; {name} listings that reach");
            for (limit, count) in reached::LIMITS.iter().zip(counts) {
                let _ = write!(line, " {limit}: {count}");
            }
        }
        line.push_str("; spellings with");
        for (sort, count) in spelled::SORTS.iter().zip(self.spellings) {
            let _ = write!(line, " {sort}: {count}");
        }
        line.push_str("; many words with");
        for (sort, count) in many::SORTS.iter().zip(self.many) {
            let _ = write!(line, " {sort}: {count}");
        }
        line.push_str("; rules with");
        for (sort, count) in ruled::SORTS.iter().zip(self.rules) {
            let _ = write!(line, " {sort}: {count}");
        }
        line.push_str("; conversions with");
        for (sort, count) in converted::SORTS.iter().zip(self.conversions) {
            let _ = write!(line, " {sort}: {count}");
        }
        line
    }

    /// What should have been met and has not.
    pub fn missing(&self) -> Vec<String> {
        let mut missing = Vec::new();
        for (kind, name) in KINDS {
            for (place, reply) in kind.replies().iter().enumerate() {
                if let (Some(reply), 0) = (reply, self.replies[kind as usize][place]) {
                    missing.push(format!("{name} {reply}"));
                }
            }
            for k in kind.refusals() {
                if self.refusals[kind as usize][k] == 0 {
                    missing.push(format!("{name} refused {k}"));
                }
            }
        }
        let [analyse, generate] = &self.limits;
        for (place, limit) in reached::LIMITS.iter().enumerate() {
            let counts = [analyse[place], generate[place]];
            if counts.contains(&0) && (place >= reached::OF_EACH || counts == [0, 0]) {
                missing.push(format!("a listing that reaches {limit}"));
            }
        }
        for (sort, count) in spelled::SORTS.iter().zip(self.spellings) {
            if count == 0 {
                missing.push(format!("a spelling with {sort}"));
            }
        }
        for (sort, count) in many::SORTS.iter().zip(self.many) {
            if count == 0 {
                missing.push(format!("many words with {sort}"));
            }
        }
        for (sort, count) in ruled::SORTS.iter().zip(self.rules) {
            if count == 0 {
                missing.push(format!("rules with {sort}"));
            }
        }
        for (sort, count) in converted::SORTS.iter().zip(self.conversions) {
            if count == 0 {
                missing.push(format!("a conversion with {sort}"));
            }
        }
        missing.extend(self.seldom());
        missing
    }

    /// The replies to texts of rules that are not at least 4 in 100 of those calls.
    fn seldom(&self) -> Vec<String> {
        let calls = self.calls(Kind::Rules);
        let [fails, holds, _] = self.replies[Kind::Rules as usize];
        let refused = self.refusals[Kind::Rules as usize];
        let replies = [
            ("fails", fails),
            ("holds", holds),
            ("refused 13", refused[13]),
            ("refused 19", refused[19]),
            ("refused 20", refused[20]),
        ];
        let seldom = replies.into_iter().filter(|(_, count)| count * 25 < calls);
        seldom
            .map(|(reply, _)| format!("judge_rules {reply} often enough"))
            .collect()
    }
}
