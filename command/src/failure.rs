//! How a command ends where it does not end well: its status, and its words on standard error.

use crate::text::{Fault, Faults};
use std::fs::File;
use std::io::{self, ErrorKind, Write};
use std::os::fd::AsFd;
use std::path::Path;

/// Why a command ended otherwise than well.
#[derive(Debug)]
pub enum Failure {
    /// It cannot be used so, and this is why; status 2.
    Usage(String),
    /// What it was to work on is not there, and that is told already; status 2.
    Missing,
    /// What went wrong is told already, or needs no words; status 1.
    Told,
}

/// Faults, and warnings, told of one text; a single slip in the alphabet can give thousands.
const MOST_TOLD: usize = 20;

/// Tells what went wrong, where no line of a file is at fault.
pub fn failed(what: &str) -> Failure {
    tell(&format!("headwords: {what}\n"));
    Failure::Told
}

/// `FILE:LINE: what`
pub fn tell_fault(file: &Path, fault: &Fault) -> Failure {
    tell(&format!("{}:{}: {}\n", file.display(), fault.line, fault.what));
    Failure::Told
}

pub fn tell_faults(file: &Path, faults: Faults) -> Failure {
    tell_some(file, &faults.by_line(), "faults");
    Failure::Told
}

/// What a grammar hardly means, which ends nothing.
pub fn tell_warnings(file: &Path, warnings: &[Fault]) {
    tell_some(file, warnings, "warnings");
}

fn tell_some(file: &Path, faults: &[Fault], kind: &str) {
    for fault in faults.iter().take(MOST_TOLD) {
        tell_fault(file, fault);
    }
    if faults.len() > MOST_TOLD {
        tell_fault(file, &Fault::new(0, format!("{} {kind} more", faults.len() - MOST_TOLD)));
    }
}

/// A reader that has seen enough closes the pipe; that needs no words.
fn output_failed(error: io::Error) -> Failure {
    if error.kind() != ErrorKind::BrokenPipe {
        tell(&format!("standard output: {error}\n"));
    }
    Failure::Told
}

/// Prints a text that is ready as a whole.
pub fn print(text: &str) -> Result<(), Failure> {
    put(text.as_bytes())
}

/// Writes to standard output at once, so that nobody waits for what is there.
pub fn put(bytes: &[u8]) -> Result<(), Failure> {
    if bytes.is_empty() {
        return Ok(());
    }
    let mut output = io::stdout().lock();
    takes_writes().and_then(|()| output.write_all(bytes)).and_then(|()| output.flush()).map_err(output_failed)
}

/// A write of nothing fails where standard output may only be read, which Rust's own writes pass over.
fn takes_writes() -> io::Result<()> {
    File::from(io::stdout().as_fd().try_clone_to_owned()?).write(&[]).map(drop)
}

/// With standard error closed there is nobody to tell.
pub fn tell(text: &str) {
    let _ = io::stderr().write_all(text.as_bytes());
}
