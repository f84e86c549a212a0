//! What is told of written rules and tables: plain lines, or lines of JSON.

use super::hold::{Held, Holder, Judged, MOST_TOLD};
use super::pairings::Pairing;
use super::text::Group;
use crate::layout::string;

pub struct Teller<'a> {
    pub holder: &'a Holder<'a>,
    pub as_json: bool,
}

impl Teller<'_> {
    /// A group with tables, and what came of holding it.
    pub fn held(&self, group: &Group, held: &Held) -> String {
        if self.as_json {
            return self.held_json(group, held);
        }
        let mut told = format!("{}: ", self.tables(group));
        let all = match held.longest {
            0 => String::new(),
            1 => ", all of 1 pair among them".to_string(),
            longest => format!(", all of up to {longest} pairs among them"),
        };
        told += &match held.different {
            0 => format!("same on {}{all}\n", count(held.count)),
            different => format!("judged differently on {different} of {}{all}\n", count(held.count)),
        };
        told.extend(held.told.iter().map(|judged| self.difference(group, judged)));
        told
    }

    fn difference(&self, group: &Group, judged: &Judged) -> String {
        let table = match &judged.refused {
            Some((pair, refusal)) => format!("the table fails: {}", self.holder.tables.told(refusal, *pair)),
            None if group.tables.len() > 1 => "the tables hold".to_string(),
            None => "the table holds".to_string(),
        };
        let mut told = format!("  {}\n    {table}\n", self.pairs(&judged.pairing).join(" "));
        match judged.disobeyed[..] {
            [] if group.rules.len() > 1 => told += "    the written rules hold\n",
            [] => told += "    the written rule holds\n",
            ref disobeyed => {
                for &at in disobeyed {
                    told += &format!("    the written rule fails: {}\n", group.rules[at].written);
                }
            }
        }
        told
    }

    /// A written rule that no table is named for, and the pairings that do not obey it.
    pub fn obeyed(&self, group: &Group, at: usize, of: usize, disobeying: &[&Pairing]) -> String {
        let rule = &group.rules[at];
        let shown = disobeying.iter().take(MOST_TOLD).map(|pairing| self.pairs(pairing));
        if self.as_json {
            let shown: Vec<String> = shown.map(|pairs| strings(&pairs)).collect();
            return format!(
                "{{\"tables\":[],\"written\":[{}],\"pairings\":{of},\"fails\":{},\"failing\":[{}]}}\n",
                text(&rule.written),
                disobeying.len(),
                shown.join(",")
            );
        }
        let mut told = match disobeying.len() {
            0 => format!("{}: holds on {}\n", rule.written, count(of)),
            fails => format!("{}: fails on {fails} of {}\n", rule.written, count(of)),
        };
        told.extend(shown.map(|pairs| format!("  {}\n", pairs.join(" "))));
        told
    }

    /// A line for each written rule of a group, and for each of its tables: verdict, pairing, rule.
    pub fn verdicts(&self, group: &Group, pairing: &Pairing) -> String {
        let judged = self.holder.judged(group, pairing.clone());
        if self.as_json {
            return format!("{{{}}}\n", self.judged_json(group, &judged));
        }
        let shown = self.pairs(pairing).join(" ");
        let mut told = String::new();
        for (at, rule) in group.rules.iter().enumerate() {
            let verdict = if judged.disobeyed.contains(&at) { "fails" } else { "holds" };
            told += &format!("{verdict}\t{shown}\t{}\n", rule.written);
        }
        if !group.tables.is_empty() {
            told += &match &judged.refused {
                Some((pair, refusal)) => format!("fails\t{shown}\t{}\n", self.holder.tables.told(refusal, *pair)),
                None => format!("holds\t{shown}\t{}\n", self.tables(group)),
            };
        }
        told
    }

    fn tables(&self, group: &Group) -> String {
        let names: Vec<String> = self.names(group).iter().map(|name| format!("\"{name}\"")).collect();
        format!("rule{} {}", if names.len() > 1 { "s" } else { "" }, names.join(" and "))
    }

    fn names(&self, group: &Group) -> Vec<String> {
        group.tables.iter().map(|&table| self.holder.grammar.rules[table].name.clone()).collect()
    }

    fn pairs(&self, pairing: &[u8]) -> Vec<String> {
        pairing.iter().map(|&pair| self.holder.tables.show(usize::from(pair))).collect()
    }

    fn held_json(&self, group: &Group, held: &Held) -> String {
        let differences: Vec<String> =
            held.told.iter().map(|judged| format!("{{{}}}", self.judged_json(group, judged))).collect();
        format!(
            "{{\"tables\":{},\"written\":{},\"pairings\":{},\"longest\":{},\"different\":{},\"differences\":[{}]}}\n",
            strings(&self.names(group)),
            strings(&written(group)),
            held.count,
            held.longest,
            held.different,
            differences.join(",")
        )
    }

    /// The fields of a pairing that is judged; `refused` is null where no table refuses it, or none is named.
    fn judged_json(&self, group: &Group, judged: &Judged) -> String {
        let refused = judged.refused.as_ref().map_or("null".to_string(), |(pair, refusal)| {
            let rule = &self.holder.grammar.rules[refusal.rule].name;
            let (rule, pair) = (text(rule), text(&self.holder.tables.show(*pair)));
            format!("{{\"rule\":{rule},\"state\":{},\"pair\":{pair},\"next\":{}}}", refusal.state, refusal.next)
        });
        let fails: Vec<String> = judged.disobeyed.iter().map(|&at| group.rules[at].written.clone()).collect();
        format!(
            "\"pairing\":{},\"tables\":{},\"refused\":{refused},\"written\":{},\"fails\":{}",
            strings(&self.pairs(&judged.pairing)),
            strings(&self.names(group)),
            strings(&written(group)),
            strings(&fails)
        )
    }
}

fn written(group: &Group) -> Vec<String> {
    group.rules.iter().map(|rule| rule.written.clone()).collect()
}

fn count(pairings: usize) -> String {
    match pairings {
        1 => "1 pairing".to_string(),
        _ => format!("{pairings} pairings"),
    }
}

fn text(text: &str) -> String {
    String::from_utf8_lossy(&string(text)).into_owned()
}

fn strings(texts: &[String]) -> String {
    let texts: Vec<String> = texts.iter().map(|one| text(one)).collect();
    format!("[{}]", texts.join(","))
}
