//! Reads a two-level grammar written as text and makes a sealed grammar image of it.

pub(crate) mod alphabet;
pub(crate) mod alternations;
pub(crate) mod columns;
mod continuations;
mod fault;
pub(crate) mod form;
mod grammar;
mod hints;
pub(crate) mod image;
pub(crate) mod lexicons;
pub(crate) mod limits;
pub(crate) mod lines;
mod lists;
pub(crate) mod pairs;
mod place;
pub(crate) mod rules;
pub(crate) mod sections;
pub(crate) mod sets;
mod slips;
mod source;
pub(crate) mod ways;
mod written;

pub use fault::{Fault, Faults};
pub use form::Form;
pub use grammar::{read_grammar, read_grammar_as, Grammar};
pub use image::sealed_image;
pub use lists::{list_entries, list_letters, list_pairs, list_sets};
pub use place::put_in_place;
pub use source::read_source;
pub use written::{write_rule, written};
