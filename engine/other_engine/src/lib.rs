//! A second engine of the two-level headword analyser: it lists whole paths and whole pairings, keeps those the definition allows, and sorts them by step list.

pub mod calls;
pub mod contexts;
pub mod conversion;
pub mod draft;
pub mod entries;
pub mod folding;
pub mod grammar;
pub mod image;
pub mod lines;
pub mod listing;
pub mod pairings;
pub mod paths;
pub mod reading;
pub mod written_rules;

pub use grammar::{Entry, Grammar, Set, Table};
pub use reading::{Reading, Stop};
