//! `headwords assemble`: makes an image of a grammar's text.

use crate::arguments::{Choice, Given};
use crate::commands::Command;
use crate::failure::{tell_fault, tell_warnings, Failure};
use crate::loaded::{is_image, load_text, Loaded};
use crate::names::{names_path, write_names};
use crate::text::{put_in_place, read_source, Fault, Form};
use crate::warnings::warnings;
use std::io;
use std::path::Path;

const FORM: Choice =
    Choice { name: "--form", value: Some("1|2"), what: "the form of the image, whatever the text says" };

pub const COMMAND: Command = Command {
    name: "assemble",
    operands: "GRAMMAR IMAGE",
    count: 2..=2,
    what: "a grammar's text to an image",
    options: &[FORM],
    more: "\
The image is sealed and ready for use. Beside it stands IMAGE.names, which has what an image does not hold: the names of sets,
rules, alternations and lexicons, and the glosses in words. Both are written whole or not at all.

An image has form 1, in which each entry has one continuation, or form 2, in which it may have several. Form 1 is written where
it serves, and form 2 where an entry has several continuations, or where the text has FORM 2. Form 1, asked for where an entry
has several, is a fault of that entry's line.
",
    run,
};

fn run(given: &Given) -> Result<(), Failure> {
    let asked = asked(given)?;
    let (source, image) = (Path::new(&given.operands[0]), Path::new(&given.operands[1]));
    let bytes = read_source(source).map_err(|fault| tell_fault(source, &fault))?;
    if is_image(&bytes) && !bytes.is_empty() {
        return Err(tell_fault(source, &Fault::new(0, "is an image and no text; headwords text gives its text")));
    }
    let Loaded { grammar, image: bytes, .. } = load_text(source, &bytes, asked)?;
    let names = names_path(image);
    for file in [image, &names] {
        if is_same_file(source, file) {
            return Err(tell_fault(file, &Fault::new(0, "is the grammar's own text")));
        }
    }
    tell_warnings(source, &warnings(&grammar));
    put_in_place(&[(&bytes, image), (write_names(&grammar, &bytes).as_bytes(), &names)]).map_err(not_written)
}

/// The form that is asked for, and the words that ask for it.
fn asked(given: &Given) -> Result<Option<(Form, &'static str)>, Failure> {
    match given.value(FORM.name).map(|value| value.to_str()) {
        None => Ok(None),
        Some(Some("1")) => Ok(Some((Form::One, "--form 1"))),
        Some(Some("2")) => Ok(Some((Form::Two, "--form 2"))),
        Some(other) => Err(Failure::Usage(format!("--form takes 1 or 2, not {}", other.unwrap_or("this")))),
    }
}

pub fn not_written((file, error): (&Path, io::Error)) -> Failure {
    tell_fault(file, &Fault::new(0, format!("cannot be written: {error}")))
}

fn is_same_file(one: &Path, other: &Path) -> bool {
    matches!((one.canonicalize(), other.canonicalize()), (Ok(one), Ok(other)) if one == other)
}
