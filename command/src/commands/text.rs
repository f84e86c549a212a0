//! `headwords text`: an image back to text.

use crate::arguments::Given;
use crate::commands::Command;
use crate::failure::{print, tell_fault, Failure};
use crate::loaded::load;
use crate::text::{written, Fault};
use std::path::Path;

pub const COMMAND: Command = Command {
    name: "text",
    operands: "IMAGE",
    count: 1..=1,
    what: "an image back to text",
    options: &[],
    more: "\
Names are those of IMAGE.names, where that is. Without it sets, rules and lexicons are called by their numbers, and glosses
in words are gone. The text assembles to the same image, byte for byte: where the image has form 2 and form 1 would serve, the
text has FORM 2.
",
    run,
};

fn run(given: &Given) -> Result<(), Failure> {
    let loaded = load(Path::new(&given.operands[0]))?;
    match written(&loaded.grammar) {
        Ok(text) => print(&text),
        Err(what) => Err(tell_fault(&loaded.path, &Fault::new(0, what))),
    }
}
