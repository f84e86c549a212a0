//! Words in: from arguments, files or standard input, spelled and asked for by many jobs at once, and answered in order.

mod accents;
mod answers;
mod compositions;
mod jobs;
mod letters;
mod list;
mod pieces;
mod progress;
mod settings;
mod sources;
mod spelling;
mod tally;

pub use accents::{composed, plain};
pub use answers::{Answer, Asker, Outcome};
pub use letters::Letters;
pub use list::{work_through, Portion};
pub use pieces::{Line, Piece, Pieces};
pub use settings::{Settings, Summary, FILE, JOBS, MOST, Q, QUIET, SUMMARY};
pub use sources::{open, Source, SourceName};
pub use spelling::{spell, trimmed, Done, Reason};
pub use tally::{words, Tally};
