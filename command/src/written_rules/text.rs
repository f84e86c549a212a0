//! A text of written rules: a rule a line, those under RULE "name" together what the table of that name was to say.

use super::contexts::Pairs;
use super::judge::Judge;
use super::rules::WrittenRule;
use crate::refusals;
use crate::text::limits;
use crate::text::lines::{decode, split, Line};
use crate::text::sections::Keyword;
use crate::text::{Fault, Faults, Grammar};

/// Written rules that stand together, and the tables that together were to say the same; none where no table is named.
#[derive(Debug, Default)]
pub struct Group {
    /// The places of the tables among the grammar's rules.
    pub tables: Vec<usize>,
    pub rules: Vec<WrittenRule>,
}

impl Group {
    /// All its rules as the library takes them.
    pub fn numbers(&self) -> Vec<u8> {
        let lines: Vec<&str> = self.rules.iter().map(|rule| rule.numbers.as_str()).collect();
        lines.join("\n").into_bytes()
    }
}

#[derive(Debug)]
pub struct Rules(pub Vec<Group>);

impl Rules {
    pub fn all(&self) -> impl Iterator<Item = &WrittenRule> {
        self.0.iter().flat_map(|group| &group.rules)
    }
}

/// Reads the bytes of a text. What is read is shown to the library, which has the last word.
pub fn read_rules(bytes: &[u8], grammar: &Grammar, judge: &Judge) -> Result<Rules, Faults> {
    let lines = split(decode(bytes)?)?;
    let mut reader = Reader { grammar, judge, groups: vec![Group::default()], named: Vec::new(), count: 0, before: 0 };
    let mut faults = Faults::default();
    for line in &lines {
        faults.keep(reader.line(line).map_err(|what| Fault::new(line.number, what)));
    }
    faults.keep(reader.has_rules());
    let Reader { mut groups, .. } = reader;
    groups.retain(|group| !group.rules.is_empty());
    faults.or(Rules(groups))
}

struct Reader<'a> {
    grammar: &'a Grammar,
    judge: &'a Judge,
    /// The first has the rules above every RULE.
    groups: Vec<Group>,
    /// Each table that is named, and in which line.
    named: Vec<(usize, usize)>,
    /// Lines that are rules, at fault or not; and how many there were at the last RULE.
    count: usize,
    before: usize,
}

impl Reader<'_> {
    fn line(&mut self, line: &Line) -> Result<(), String> {
        if line.words[0].bare().and_then(Keyword::named) == Some(Keyword::Rule) {
            return self.name_table(line);
        }
        self.count += 1;
        match self.count.checked_sub(*limits::RULES.end()) {
            None | Some(0) => {}
            Some(1) => return Err(format!("over {} written rules", limits::RULES.end())),
            Some(_) => return Ok(()),
        }
        let rule = WrittenRule::read(&line.words, Pairs::of(self.grammar))?;
        self.judge.accepts(&rule.numbers).map_err(refusals::told)?;
        if let Some(group) = self.groups.last_mut() {
            group.rules.push(rule);
        }
        Ok(())
    }

    /// `RULE "name"`; several, one after another, name tables that together were to say what follows.
    fn name_table(&mut self, line: &Line) -> Result<(), String> {
        let [_, name] = line.words[..] else {
            return Err("RULE takes the name of one rule of the grammar, in quotation marks".to_string());
        };
        let table = self.grammar.find_rule(name.text())?;
        if let Some((_, first)) = self.named.iter().find(|(other, _)| *other == table) {
            return Err(format!("a second RULE \"{}\"; the first is in line {first}", self.grammar.rules[table].name));
        }
        self.named.push((table, line.number));
        self.before = self.count;
        match self.groups.last_mut() {
            Some(group) if group.rules.is_empty() && !group.tables.is_empty() => group.tables.push(table),
            _ => self.groups.push(Group { tables: vec![table], rules: Vec::new() }),
        }
        Ok(())
    }

    /// Nothing would be a rule that every pairing obeys, which is hardly meant.
    fn has_rules(&self) -> Result<(), Fault> {
        match self.named.last() {
            Some((_, line)) if self.count == self.before => Err(Fault::new(*line, "no written rule follows")),
            _ => Ok(()),
        }
    }
}
