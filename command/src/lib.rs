//! What the command `headwords` is made of: grammars as text and as images, and the proved library that reads words by them.

mod arguments;
mod checksum;
mod commands;
mod decode;
mod failure;
mod layout;
mod lending;
#[allow(unsafe_code)]
mod library;
mod loaded;
mod names;
mod nearest;
mod paths;
mod readings;
mod refusals;
mod show;
mod text;
mod warnings;
mod why;
mod words;
mod written_rules;

pub use commands::run;
pub use decode::decode;
pub use text::{
    list_entries, list_letters, list_pairs, list_sets, read_grammar, read_grammar_as, read_source, sealed_image,
    written, Fault, Faults, Form, Grammar,
};
pub use warnings::warnings;
