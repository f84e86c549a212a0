//! Paths through the lexicon, from their entries as text to the words that they can be written as.

mod links;
mod text;
mod written;

pub use links::Links;
pub use text::Entries;
pub use written::Writer;

/// The entries that a path can have; longer ones are refused.
pub const MOST_ENTRIES: usize = 16;
