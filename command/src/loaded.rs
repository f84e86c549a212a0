//! A grammar that is ready for use: a text, assembled in memory, or an image with its names beside it.

use crate::decode::decode;
use crate::failure::{tell_fault, tell_faults, Failure};
use crate::library;
use crate::names::{name_grammar, names_path};
use crate::refusals;
use crate::text::image::BLOCK;
use crate::text::{read_grammar_as, read_source, sealed_image, Fault, Form, Grammar};
use std::path::{Path, PathBuf};

#[derive(Debug)]
pub struct Loaded {
    pub path: PathBuf,
    /// Accepted by the library.
    pub image: Vec<u8>,
    pub grammar: Grammar,
    /// Whether sets, rules, lexicons and glosses have the names of the text.
    pub named: bool,
}

impl Loaded {
    /// Leaves what the image alone says.
    pub fn forget_names(&mut self) {
        self.grammar = decode(&self.image);
        self.named = false;
    }

    /// Its form, and how much of what it holds, in the order in which that is told.
    pub fn counts(&self) -> [(&'static str, usize); 8] {
        let grammar = &self.grammar;
        [
            ("form", grammar.form.number()),
            ("letters", grammar.alphabet.count()),
            ("pairs", grammar.pairs.len()),
            ("sets", grammar.sets.all().len()),
            ("rules", grammar.rules.len()),
            ("lexicons", grammar.lexicons.len()),
            ("entries", grammar.entries().len()),
            ("blocks", self.image.len() / BLOCK),
        ]
    }
}

/// Loads a text or an image. What is wrong with it is told.
pub fn load(path: &Path) -> Result<Loaded, Failure> {
    let bytes = read_source(path).map_err(|fault| tell_fault(path, &fault))?;
    load_bytes(path, bytes)
}

/// Loads what a file holds.
pub fn load_bytes(path: &Path, bytes: Vec<u8>) -> Result<Loaded, Failure> {
    if !is_image(&bytes) {
        return load_text(path, &bytes, None);
    }
    accept(path, &bytes)?;
    let grammar = decode_named(path, &bytes);
    Ok(Loaded { path: path.to_path_buf(), named: grammar.named, image: bytes, grammar })
}

/// Loads a text, in the form that is asked for, and by whom, or else its own.
pub fn load_text(path: &Path, bytes: &[u8], asked: Option<(Form, &str)>) -> Result<Loaded, Failure> {
    let grammar = read_grammar_as(bytes, asked).map_err(|faults| tell_faults(path, faults))?;
    let image = sealed_image(&grammar);
    accept(path, &image)?;
    Ok(Loaded { path: path.to_path_buf(), image, grammar, named: true })
}

fn accept(path: &Path, image: &[u8]) -> Result<(), Failure> {
    match library::check(image).refusal() {
        Some(number) => Err(tell_fault(path, &Fault::new(0, refusals::told(number)))),
        None => Ok(()),
    }
}

/// The grammar of an accepted image, with its names where they are there. Names that are not its own are told.
fn decode_named(path: &Path, image: &[u8]) -> Grammar {
    let mut grammar = decode(image);
    let beside = names_path(path);
    if beside.exists() {
        let named = read_source(&beside).and_then(|bytes| name_grammar(&mut grammar, image, &bytes));
        if let Err(fault) = named {
            tell_fault(&beside, &Fault::new(fault.line, format!("{}; these names are not used", fault.what)));
        }
    }
    grammar
}

/// An image begins with block number 0 and counts below 256 in two bytes each; a text has no such byte, except where it is
/// saved as UTF-16, which begins with one of two marks. An empty file is an image that was cut off.
pub fn is_image(bytes: &[u8]) -> bool {
    let marked = bytes.starts_with(&[0xFF, 0xFE]) || bytes.starts_with(&[0xFE, 0xFF]);
    bytes.is_empty() || !marked && bytes.iter().take(16).any(|&byte| byte == 0)
}
