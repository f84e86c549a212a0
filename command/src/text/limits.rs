//! The limits of a grammar, as documents 01 and 02 set them for an image, and of the text that it is read from.

use crate::text::fault::Fault;
use std::ops::RangeInclusive;

/// Letters, the boundary being one of them.
pub const LETTERS: RangeInclusive<usize> = 2..=120;
pub const PAIRS: RangeInclusive<usize> = 1..=250;
pub const SETS: RangeInclusive<usize> = 0..=31;
pub const RULES: RangeInclusive<usize> = 0..=32;
pub const COLUMNS: RangeInclusive<usize> = 1..=16;
pub const STATES: RangeInclusive<usize> = 1..=24;
pub const LEXICONS: RangeInclusive<usize> = 1..=64;
pub const ENTRIES: RangeInclusive<usize> = 1..=2_800;
/// Blocks of an image.
pub const BLOCKS: usize = 128;
/// Letters of one form; an entry of the image has this many places for them.
pub const FORM: RangeInclusive<usize> = 0..=12;
/// The highest code point that fits the two bytes of a letter.
pub const CODE_POINT: u32 = 65_535;

/// Bytes of a text: far above what the limits can fill, so that an endless file is not read for ever.
pub const TEXT: u64 = 16 * 1024 * 1024;

/// `count` where it lies within `limit`, else the fault that names `things`.
pub fn within(limit: &RangeInclusive<usize>, count: usize, things: &str, line: usize) -> Result<usize, Fault> {
    if limit.contains(&count) {
        return Ok(count);
    }
    let (least, most) = (limit.start(), limit.end());
    Err(Fault::new(line, format!("{count} {things}; allowed are {least} to {most}")))
}
