//! `headwords check`: whether a grammar is accepted, what it holds, and what it hardly means.

use crate::arguments::Given;
use crate::checksum::checksum;
use crate::commands::Command;
use crate::failure::{print, tell_fault, tell_warnings, Failure};
use crate::library;
use crate::loaded::{is_image, load_bytes, Loaded};
use crate::refusals;
use crate::text::read_source;
use crate::warnings::warnings;
use std::path::Path;

pub const COMMAND: Command = Command {
    name: "check",
    operands: "IMAGE-OR-TEXT",
    count: 1..=1,
    what: "whether a grammar is accepted, what it holds, and what it hardly means",
    options: &[],
    more: "\
It prints the verdict, `accepted`, `refused` with the number of the first test that fails and what that means, or `faulty`
for a text; then how much of what the grammar holds. cksum is the sum of the image, as `cksum IMAGE` prints it. Faults of a
text and warnings go to standard error. Warned is of lexicons that are never reached or that no word ends after, of rules that
no word can pass, states that are never reached, columns that are never picked, sets that no rule names, letters in no pair,
equal entries and rules, and circles of empty entries.

It ends with 0 where the grammar is accepted, with 1 where it is not, with 2 where it cannot be read.
",
    run,
};

fn run(given: &Given) -> Result<(), Failure> {
    let path = Path::new(&given.operands[0]);
    let bytes = read_source(path).map_err(|fault| {
        tell_fault(path, &fault);
        Failure::Missing
    })?;
    if is_image(&bytes) {
        if let Some(number) = library::check(&bytes).refusal() {
            return print(&format!("{}\n", refusals::told(number))).and(Err(Failure::Told));
        }
    }
    let loaded = load_bytes(path, bytes).or_else(|failure| print("faulty\n").and(Err(failure)))?;
    let told = warnings(&loaded.grammar);
    print(&holdings(&loaded, told.len()))?;
    tell_warnings(path, &told);
    Ok(())
}

/// The verdict, and a line for each count.
fn holdings(loaded: &Loaded, warnings: usize) -> String {
    let mut lines = "accepted\n".to_string();
    lines.extend(loaded.counts().iter().map(|(things, count)| format!("{things}\t{count}\n")));
    let names = if loaded.named { "yes" } else { "no" };
    lines + &format!("cksum\t{}\nnames\t{names}\nwarnings\t{warnings}\n", checksum(&loaded.image))
}
