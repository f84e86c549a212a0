//! Why a word has no reading. The library alone decides that it has none; what is said here only explains it.

mod explain;
mod groups;
mod hints;
mod json;
mod search;
mod tables;
mod told;
mod without;

pub use explain::Explainer;
pub use tables::{Refusal, Tables};
pub use told::Teller;
