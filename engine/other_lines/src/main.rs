//! The line program is run on images and inputs, and what it prints is compared with the second engine's printing.

mod cases;
mod fault;
mod program;
mod random;
mod spelling;
mod tally;
mod words;

use fault::Fault;
use std::path::PathBuf;
use std::process::ExitCode;

const USAGE: &str =
    "usage: other_lines PROGRAM SEED COUNT, or other_lines PROGRAM --words IMAGE WORDS";

/// The program by its whole path, since it is run in other folders.
fn whole(program: &str) -> Result<PathBuf, Fault> {
    std::fs::canonicalize(program).map_err(|error| Fault::Unusable(format!("{program}: {error}")))
}

fn number(text: &str) -> Result<u64, Fault> {
    text.parse().map_err(|_| Fault::Unusable(USAGE.to_string()))
}

fn compared(arguments: &[&str]) -> Result<(), Fault> {
    match arguments {
        [program, "--words", image, words] => words::compare(&whole(program)?, image, words),
        [program, seed, count] => {
            let (seed, count) = (number(seed)?, number(count)?);
            random::compare(&whole(program)?, seed, count)
        }
        _ => Err(Fault::Unusable(USAGE.to_string())),
    }
}

fn main() -> ExitCode {
    let arguments: Vec<String> = std::env::args().skip(1).collect();
    let arguments: Vec<&str> = arguments.iter().map(String::as_str).collect();
    match compared(&arguments) {
        Ok(()) => ExitCode::SUCCESS,
        Err(fault) => fault.end(),
    }
}
