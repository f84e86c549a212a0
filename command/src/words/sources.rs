//! Where words come from: arguments, files, standard input.

use crate::failure::{failed, Failure};
use std::ffi::{OsStr, OsString};
use std::fs::{self, File};
use std::io::{self, Cursor, IsTerminal, Read};
use std::os::fd::AsFd;

pub struct Source {
    pub name: SourceName,
    pub bytes: Box<dyn Read + Send>,
    /// How many bytes it has, where that is known.
    pub size: Option<u64>,
    /// Somebody types the words.
    pub is_typed: bool,
}

#[derive(Clone, Debug)]
pub enum SourceName {
    Arguments,
    File(String),
}

impl SourceName {
    /// A line as messages name it.
    pub fn place(&self, line: usize) -> String {
        match self {
            SourceName::Arguments => format!("argument {line}"),
            SourceName::File(name) => format!("{name}:{line}"),
        }
    }

    pub fn whole(&self) -> &str {
        match self {
            SourceName::Arguments => "arguments",
            SourceName::File(name) => name,
        }
    }
}

/// Words that are arguments come first, then files, of which `-` is standard input; without any, that alone. All are opened
/// before the first is read, so that a file that is missing is told before anything is printed.
pub fn open(words: &[OsString], files: &[&OsStr]) -> Result<Vec<Source>, Failure> {
    let mut sources = Vec::new();
    if !words.is_empty() {
        sources.push(arguments(words));
    }
    for file in files {
        sources.push(if *file == "-" { input()? } else { open_file(file)? });
    }
    if sources.is_empty() {
        sources.push(input()?);
    }
    Ok(sources)
}

fn arguments(words: &[OsString]) -> Source {
    let lines: Vec<u8> = words.iter().flat_map(|word| [word.as_encoded_bytes(), b"\n"].concat()).collect();
    let size = Some(lines.len() as u64);
    Source { name: SourceName::Arguments, bytes: Box::new(Cursor::new(lines)), size, is_typed: false }
}

fn input() -> Result<Source, Failure> {
    let name = "standard input".to_string();
    let input = io::stdin();
    // A read of nothing fails where standard input may only be written, which Rust's own reads take for its end.
    let opened = input.as_fd().try_clone_to_owned().map(File::from);
    let file = opened.and_then(|mut file| file.read(&mut []).map(|_| file));
    let file = file.map_err(|error| failed(&format!("{name}: {error}")))?;
    let is_typed = input.is_terminal();
    Ok(Source { name: SourceName::File(name), bytes: Box::new(input), size: size(&file), is_typed })
}

fn open_file(path: &OsStr) -> Result<Source, Failure> {
    let name = path.display().to_string();
    match File::open(path) {
        Ok(file) => {
            let (size, is_typed) = (size(&file), file.is_terminal());
            Ok(Source { name: SourceName::File(name), bytes: Box::new(file), size, is_typed })
        }
        Err(error) => Err(failed(&format!("{name}: cannot be read: {error}"))),
    }
}

fn size(file: &File) -> Option<u64> {
    file.metadata().ok().filter(fs::Metadata::is_file).map(|metadata| metadata.len())
}
