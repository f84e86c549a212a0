//! `headwords list`: what a grammar numbers.

use crate::arguments::Given;
use crate::commands::Command;
use crate::failure::{print, Failure};
use crate::loaded::load;
use crate::nearest::{is_meant, nearest};
use crate::text::{list_entries, list_letters, list_pairs, list_sets, Grammar};
use std::path::Path;

pub const COMMAND: Command = Command {
    name: "list",
    operands: "letters|pairs|sets|entries GRAMMAR",
    count: 2..=2,
    what: "what a grammar numbers, for those who read the library's numbers",
    options: &[],
    more: "\
letters  number, letter
pairs    number, pair
sets     number, name, letters
entries  number, lexicon, form, continuations divided by spaces, gloss number, gloss in words
",
    run,
};

type List = fn(&Grammar) -> String;

const LISTS: [(&str, List); 4] =
    [("letters", list_letters), ("pairs", list_pairs), ("sets", list_sets), ("entries", list_entries)];

fn run(given: &Given) -> Result<(), Failure> {
    let name = given.operands[0].to_string_lossy();
    let Some((_, list)) = LISTS.iter().find(|(list, _)| *list == name) else {
        let near = is_meant(nearest(&name, LISTS.iter().map(|(list, _)| *list)));
        return Err(Failure::Usage(format!("there is no list of {name}{near}")));
    };
    print(&list(&load(Path::new(&given.operands[1]))?.grammar))
}
