//! Claims of a file about rule tables and written rules: which table, which rules, and whether they judge every pairing alike or differ by one that is named.

use other_engine::grammar::Grammar;

/// What a file says of a table and some rules.
pub struct Claim {
    /// From 0.
    pub table: usize,
    /// The rules as the file has them, and as a text of rules.
    pub spoken: Vec<String>,
    pub text: Vec<u8>,
    /// Rules that a pairing has to keep for the two to be alike.
    pub given: Vec<u8>,
    pub said: Vec<Said>,
}

/// What is said of a table and its rules.
pub enum Said {
    Alike,
    /// What the table and the rules reply to a pairing.
    Unlike(Verdicts, Vec<u8>),
}

/// Whether a table passes a pairing, and whether rules do.
pub type Verdicts = (bool, bool);

/// The claims of a file, or what is wrong with it.
///
///     table 1
///     Z:c <=> _ +:0 e:e
///     alike
///
/// Rules have letters for pair numbers, with spaces where they are wanted; #:# is the boundary pair. With a line `given e:e /<= e:e _` the two are alike on the
/// pairings that keep this rule. A line `unlike passes fails Z:c +:0` names a pairing that the table passes and the rules fail.
pub fn claims(grammar: &Grammar, file: &str) -> Result<Vec<Claim>, String> {
    let mut claims: Vec<Claim> = Vec::new();
    for line in file.lines().map(str::trim) {
        let wrong = |what: &str| format!("{what}: {line}");
        if line.is_empty() || line.starts_with(';') {
            continue;
        }
        if let Some(number) = line.strip_prefix("table ") {
            let number = number.parse().unwrap_or(0);
            if !(1..=grammar.tables.len()).contains(&number) {
                return Err(wrong("no such table"));
            }
            claims.push(Claim {
                table: number - 1,
                spoken: Vec::new(),
                text: Vec::new(),
                given: Vec::new(),
                said: Vec::new(),
            });
            continue;
        }
        let claim = claims.last_mut().ok_or_else(|| wrong("no table"))?;
        if line == "alike" {
            claim.said.push(Said::Alike);
        } else if let Some(rest) = line.strip_prefix("unlike ") {
            let mut words = rest.split_whitespace();
            let mut passes = || match words.next() {
                Some("passes") => Ok(true),
                Some("fails") => Ok(false),
                _ => Err(wrong("neither passes nor fails")),
            };
            let verdicts = (passes()?, passes()?);
            let pairs = words.map(|word| pair(grammar, word).ok_or_else(|| wrong("no such pair")));
            claim
                .said
                .push(Said::Unlike(verdicts, pairs.collect::<Result<_, _>>()?));
        } else {
            let given = line.strip_prefix("given ");
            let rule = rule(grammar, given.unwrap_or(line)).ok_or_else(|| wrong("no rule"))?;
            claim.spoken.push(line.to_string());
            let text = match given {
                Some(_) => &mut claim.given,
                None => &mut claim.text,
            };
            text.extend(rule.as_bytes());
            text.push(b'\n');
        }
    }
    Ok(claims)
}

/// The letter that is written so, the null as 0.
fn letter(grammar: &Grammar, written: &str) -> Option<u8> {
    let mut points = written.chars();
    match (points.next()?, points.next()) {
        ('0', None) => Some(0),
        (point, None) => grammar.letter(u32::from(point).try_into().ok()?),
        _ => None,
    }
}

fn pair(grammar: &Grammar, written: &str) -> Option<u8> {
    let (lexical, surface) = written.split_once(':')?;
    grammar.pair_number(letter(grammar, lexical)?, letter(grammar, surface)?)
}

/// A pairing as it is written.
pub fn written(grammar: &Grammar, pairing: &[u8]) -> String {
    let letter = |side: u8| match side {
        0 => '0',
        _ => char::from_u32(u32::from(grammar.letters[usize::from(side) - 1])).unwrap_or('?'),
    };
    let pairs = pairing.iter().map(|&pair| {
        let (lexical, surface) = grammar.pairs[usize::from(pair)];
        format!("{}:{}", letter(lexical), letter(surface))
    });
    pairs.collect::<Vec<String>>().join(" ")
}

/// A rule's line with pair numbers.
fn rule(grammar: &Grammar, written: &str) -> Option<String> {
    let number = |word: &str| match word {
        "#:#" => Some("255".to_string()),
        _ => Some(format!("{:03}", pair(grammar, word)?)),
    };
    let mut words = written.splitn(3, ' ');
    let (own, operator, contexts) = (words.next()?, words.next()?, words.next()?);
    let mut line = format!("{operator} {} ", number(own)?);
    let is_mark = |point: char| "()|*._ ".contains(point);
    for part in contexts.split_inclusive(is_mark) {
        let word = part.trim_end_matches(is_mark);
        if !word.is_empty() {
            line += &number(word)?;
        }
        line += part[word.len()..].trim();
    }
    Some(line)
}
