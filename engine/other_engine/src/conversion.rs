//! A grammar is converted by being written anew, whole, in the other form of the image.

use crate::calls::Known;
use crate::draft::Draft;
use crate::image::{seal, BLOCK};
use crate::listing::refused;

/// The most blocks of an image.
const MOST: usize = 128;

/// The image in the other form, or the refusal.
pub fn converted(known: &Known) -> Result<Vec<u8>, u8> {
    let grammar = known.as_ref().map_err(|&k| k)?;
    // In form 1 no entry has several.
    if grammar.entries.iter().any(|entry| entry.ways() > 1) {
        return Err(15);
    }
    let mut draft = Draft::of(grammar);
    draft.image_form = 3 - grammar.image_form;
    let mut image = draft.unsealed();
    if image.len() > MOST * BLOCK {
        return Err(16);
    }
    seal(&mut image)?;
    Ok(image)
}

/// Writes the image in the other form over the whole target, where the target is just as long, and replies by number.
pub fn convert_reply(known: &Known, target: &mut [u8]) -> u64 {
    match converted(known) {
        Ok(image) if image.len() == target.len() => {
            target.copy_from_slice(&image);
            1
        }
        Ok(_) => refused(17),
        Err(k) => refused(k),
    }
}
