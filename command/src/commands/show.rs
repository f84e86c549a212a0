//! `headwords show`: a rule table drawn.

use crate::arguments::{Choice, Given};
use crate::commands::Command;
use crate::failure::{failed, print, Failure};
use crate::loaded::load;
use crate::show::{dot, svg, text, Shown};
use crate::text::Grammar;
use std::path::Path;

pub const COMMAND: Command = Command {
    name: "show",
    operands: "GRAMMAR [RULE]",
    count: 1..=2,
    what: "a rule table drawn",
    options: &[
        Choice { name: "--dot", value: None, what: "as a graph for Graphviz" },
        Choice { name: "--svg", value: None, what: "as a picture" },
        Choice { name: "--failures", value: None, what: "with state 0 and the arcs to it, in the graph or picture" },
    ],
    more: "\
RULE is a rule's name, the beginning of one name alone, or a rule's number, from 0. Without it the rules are listed:
number, name. As text a rule is its table, the pairs that take each column, and for each state its arcs. In a graph or a
picture final states have a double ring, and what has no arc fails.

status: 0; 1 where there is no such rule, or the grammar has faults or cannot be read; 2 for wrong usage
",
    run,
};

fn run(given: &Given) -> Result<(), Failure> {
    let (as_dot, as_svg, failures) = (given.has("--dot"), given.has("--svg"), given.has("--failures"));
    if as_dot && as_svg {
        return Err(Failure::Usage("--dot and --svg are two pictures; choose one".to_string()));
    }
    if failures && !as_dot && !as_svg {
        return Err(Failure::Usage("--failures goes with --dot or --svg; the text has them".to_string()));
    }
    let loaded = load(Path::new(&given.operands[0]))?;
    let Some(asked) = given.operands.get(1) else {
        return print(&list(&loaded.grammar));
    };
    let at = loaded.grammar.find_rule(&asked.to_string_lossy()).map_err(|what| failed(&what))?;
    let shown = Shown::of(&loaded.grammar, at);
    print(&match (as_dot, as_svg) {
        (true, _) => dot(&shown, failures),
        (_, true) => svg(&shown, failures),
        _ => text(&shown),
    })
}

/// A line a rule: number, name.
fn list(grammar: &Grammar) -> String {
    let rules = grammar.rules.iter().enumerate();
    rules.map(|(number, rule)| format!("{number}\t{}\n", rule.name)).collect()
}
