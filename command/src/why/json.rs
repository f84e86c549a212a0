//! The explanation of a word as a line of JSON, with the same fields in every line.

use super::explain::{LeftOut, Nothing, Outcome};
use super::groups::{groups, last_entry, Group};
use super::search::{opened, Dead, Furthest, Step, Stop};
use super::tables::Refusal;
use super::told::{barred_pair, late_without, Teller, LATE};
use super::without::Readings;
use crate::layout;
use crate::library::Reply;
use crate::refusals;
use crate::text::pairs::Pair;

/// The values of a line's fields but for the word, in JSON.
struct Fields {
    outcome: &'static str,
    reason: String,
    furthest: String,
    without: String,
    readings: String,
}

impl Fields {
    fn of(outcome: &'static str) -> Fields {
        let (null, none) = (|| "null".to_string(), || "[]".to_string());
        Fields { outcome, reason: null(), furthest: null(), without: none(), readings: none() }
    }
}

impl Teller<'_> {
    /// The line of a word, given as the bytes that were typed.
    pub fn json(&self, typed: &[u8]) -> String {
        let Fields { outcome, reason, furthest, without, readings } = match self.explainer.explain(typed) {
            Outcome::Unread(why) => Fields { reason: string(&why), ..Fields::of("unread") },
            Outcome::Refused(number) => Fields { reason: string(&refusals::told(number)), ..Fields::of("refused") },
            Outcome::Late => Fields { reason: string(LATE), ..Fields::of("late") },
            Outcome::Read(readings) => {
                let outcome = if matches!(readings.reply, Reply::More(_)) { "more" } else { "all" };
                Fields { readings: self.json_readings(&readings), ..Fields::of(outcome) }
            }
            Outcome::NeverWritten { why, .. } => Fields { reason: string(&why.join("; ")), ..Fields::of("none") },
            Outcome::None(nothing) => self.json_nothing(&nothing),
        };
        let word = string(&String::from_utf8_lossy(typed));
        format!("{{\"word\":{word},\"outcome\":\"{outcome}\",\"reason\":{reason},\"furthest\":{furthest},\"without\":{without},\"readings\":{readings}}}\n")
    }

    fn json_nothing(&self, nothing: &Nothing) -> Fields {
        let without = |one: &LeftOut| {
            let rules = array(one.rules.iter().map(|&rule| self.json_rule(rule)));
            let more = matches!(one.readings.reply, Reply::More(_));
            format!("{{\"rules\":{rules},\"more\":{more},\"readings\":{}}}", self.json_readings(&one.readings))
        };
        let nowhere = Fields::of("none");
        Fields {
            reason: if nothing.late { string(&late_without()) } else { nowhere.reason },
            furthest: self.json_furthest(&nothing.furthest),
            without: array(nothing.left_out.iter().map(without)),
            ..nowhere
        }
    }

    fn json_furthest(&self, furthest: &Furthest) -> String {
        let Furthest { covered, cut, .. } = furthest;
        let front = array(furthest.front.iter().map(|refusal| self.json_refusal(refusal, self.tables.boundary())));
        let groups = groups(&furthest.dead, self.tables);
        let ways = array(groups.iter().map(|group| self.json_group(group)));
        format!("{{\"covered\":{covered},\"cut\":{cut},\"front\":{front},\"ways\":{ways}}}")
    }

    fn json_group(&self, group: &Group) -> String {
        let way = group.ways()[0];
        let side = |of: fn(Pair) -> u8| {
            let alphabet = &self.explainer.loaded.grammar.alphabet;
            array(way.pairs().map(|pair| string(&alphabet.character(of(self.tables.pair(pair))).to_string())))
        };
        let pairing = format!("\"lexical\":{},\"surface\":{}", side(|pair| pair.lexical), side(|pair| pair.surface));
        match group {
            Group::Barred { .. } => {
                let pair = barred_pair(way).map_or("null".to_string(), |pair| string(&self.pair(pair)));
                let rules = match &way.stop {
                    Stop::Refused { pair, by } => array(by.iter().map(|refusal| self.json_refusal(refusal, *pair))),
                    _ => array([]),
                };
                let (stop, entries) = (stop(&way.stop), self.json_entries(&way.steps));
                format!("{{{pairing},\"entries\":{entries},\"stop\":\"{stop}\",\"pair\":{pair},\"rules\":{rules}}}")
            }
            Group::Unfit { lexicons, dead } => {
                let lexicon = |&at: &usize| string(&self.explainer.loaded.grammar.lexicons[at].name);
                let (lexicons, entries) = (array(lexicons.iter().map(lexicon)), self.json_entries(last_entry(way).0));
                let tried = array(dead.iter().map(|dead| self.json_tried(dead)));
                format!(
                    "{{{pairing},\"entries\":{entries},\"stop\":\"unfit\",\"lexicons\":{lexicons},\"tried\":{tried}}}"
                )
            }
        }
    }

    /// An entry that was tried, how many of its letters are paired, and why no more.
    fn json_tried(&self, dead: &Dead) -> String {
        let entry = self.json_entry(last_entry(dead).1);
        format!("{{\"entry\":{entry},\"paired\":{},\"stop\":\"{}\"}}", dead.place, stop(&dead.stop))
    }

    fn json_refusal(&self, refusal: &Refusal, pair: usize) -> String {
        let Refusal { rule, state, next } = *refusal;
        let column = string(&self.tables.column(rule, pair));
        format!("{{\"rule\":{},\"state\":{state},\"column\":{column},\"next\":{next}}}", self.json_rule(rule))
    }

    fn json_rule(&self, rule: usize) -> String {
        string(&self.explainer.loaded.grammar.rules[rule].name)
    }

    fn json_entries(&self, steps: &[Step]) -> String {
        array(opened(steps).map(|entry| self.json_entry(entry)))
    }

    fn json_entry(&self, entry: usize) -> String {
        text(layout::object(&self.names.entries[entry], None))
    }

    fn json_readings(&self, readings: &Readings) -> String {
        array(readings.all().map(|(path, pairing)| {
            let entries = array(path.iter().map(|&entry| self.json_entry(entry)));
            let pairing = array(pairing.iter().map(|&pair| string(&self.names.pairs[pair])));
            format!("{{\"entries\":{entries},\"pairing\":{pairing}}}")
        }))
    }
}

fn stop(stop: &Stop) -> &'static str {
    match stop {
        Stop::Refused { .. } => "refused",
        Stop::NoPair => "no pair",
        Stop::LeftOver => "left over",
        Stop::WordEnds => "word ends",
        Stop::Nulls { .. } => "nulls",
        Stop::Entries => "entries",
    }
}

fn array(values: impl IntoIterator<Item = String>) -> String {
    format!("[{}]", values.into_iter().collect::<Vec<_>>().join(","))
}

fn string(text_of: &str) -> String {
    text(layout::string(text_of))
}

/// JSON that is made of texts is UTF-8.
fn text(json: Vec<u8>) -> String {
    String::from_utf8(json).unwrap_or_default()
}
