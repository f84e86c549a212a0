//! Rules as linguists write them, `Z:c <=> _ +:0 e:e`: read with letters, handed to the library with numbers, and held against
//! the tables of a grammar.

mod contexts;
mod drawing;
mod hold;
mod judge;
mod kinds;
mod numbers;
mod pairings;
mod rules;
mod signs;
mod text;
mod told;

pub use hold::{Asked, Holder};
pub use judge::Judge;
pub use numbers::with_letters;
pub use pairings::{read_pairing, read_pairings, readings, Pairing};
pub use text::{read_rules, Group, Rules};
pub use told::Teller;
