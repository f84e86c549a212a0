//! What the tests share: the samples, a folder to work in, and a run of the program.

// Each test file is a program of its own and uses a part of this.
#![allow(dead_code)]

pub mod check;

use headwords_command::{read_grammar, sealed_image, Fault};
use std::ffi::OsStr;
use std::fs;
use std::path::{Path, PathBuf};
use std::process::{Command, Stdio};

pub const SAMPLES: [&str; 4] = ["luz", "quichua", "spanish", "quichua_ways"];

pub fn sample_path(name: &str) -> PathBuf {
    Path::new(env!("CARGO_MANIFEST_DIR")).join("../grammars").join(format!("{name}.txt"))
}

pub fn sample(name: &str) -> String {
    fs::read_to_string(sample_path(name)).unwrap()
}

/// The image of a text, or its faults by line.
pub fn assembled(text: &str) -> Result<Vec<u8>, Vec<Fault>> {
    read_grammar(text.as_bytes()).map(|grammar| sealed_image(&grammar)).map_err(|faults| faults.by_line())
}

/// The image of a text, which the check has to accept.
pub fn accepted(text: &str) -> Vec<u8> {
    let image = assembled(text).unwrap();
    assert_eq!(check::refusal(&image), None);
    image
}

/// A text with one place of it changed.
pub fn edited(text: &str, from: &str, to: &str) -> String {
    assert_eq!(text.matches(from).count(), 1, "{from:?} stands once in the text");
    text.replace(from, to)
}

/// Where a run that writes no file may take place.
pub fn anywhere() -> &'static Path {
    Path::new(env!("CARGO_TARGET_TMPDIR"))
}

/// An empty folder of the test's own; tests run side by side, so no two may name the same.
pub fn scratch(test: &str) -> PathBuf {
    let folder = anywhere().join(test);
    if folder.exists() {
        fs::remove_dir_all(&folder).unwrap();
    }
    fs::create_dir_all(&folder).unwrap();
    folder
}

/// The names of the files in a folder, in order.
pub fn names(folder: &Path) -> Vec<String> {
    let entries = fs::read_dir(folder).unwrap();
    let mut names: Vec<String> = entries.map(|entry| entry.unwrap().file_name().into_string().unwrap()).collect();
    names.sort();
    names
}

#[derive(Debug, PartialEq)]
pub struct Ran {
    pub code: Option<i32>,
    pub stdout: String,
    pub stderr: String,
}

/// Runs the program in a folder.
pub fn run(folder: &Path, arguments: &[impl AsRef<OsStr>]) -> Ran {
    let mut command = Command::new(env!("CARGO_BIN_EXE_headwords"));
    command.args(arguments);
    run_command(folder, command)
}

pub fn run_command(folder: &Path, mut command: Command) -> Ran {
    let output = command.current_dir(folder).stdin(Stdio::null()).output().unwrap();
    Ran {
        code: output.status.code(),
        stdout: String::from_utf8(output.stdout).unwrap(),
        stderr: String::from_utf8(output.stderr).unwrap(),
    }
}
