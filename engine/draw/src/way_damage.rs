//! The ways on of an entry, and the form of an image, are damaged, or changed up to the edge of what is refused.

use crate::damage::{put, resealed, Damaged, Place};
use crate::prng::Prng;
use other_engine::draft::Draft;
use other_engine::grammar::END;

/// Gives the entry whose record begins here ways on that it can't have, for refusal 8.
pub fn ways(prng: &mut Prng, place: &Place, image: &mut [u8], at: usize) {
    if place.image_form == 1 {
        image[at + 13] = match prng.below(3) {
            0 => place.lexicons as u8,
            1 => END - 1,
            _ => prng.between(place.lexicons, 254) as u8,
        };
        return;
    }
    let bits = at + 16..at + 24;
    match prng.below(4) {
        0 if place.lexicons < 64 => {
            let lexicon = match prng.below(3) {
                0 => place.lexicons,
                1 => 63,
                _ => prng.between(place.lexicons, 63),
            };
            // Beside the ways that it has, or alone.
            if prng.percent(40) {
                image[bits.clone()].fill(0);
            }
            image[bits.start + lexicon / 8] |= 1 << (lexicon % 8);
        }
        1 => image[at + 13] = prng.one_of(&[2, 2, 3, 128, 254, 255]),
        2 => image[at + 13] = prng.between(2, 255) as u8,
        _ => {
            image[at + 13] = 0;
            image[bits].fill(0);
        }
    }
}

/// The image under the name of the other form, which is refused by 3 or, where the blocks are as many, by 8; few entries of other bytes would pass.
pub fn other_form(prng: &mut Prng, draft: &Draft) -> Damaged {
    let mut image = draft.image();
    put(&mut image, 4, 3 - draft.image_form);
    if prng.percent(30) {
        // The entry total, too, as if records were as wide as that.
        let entries = draft.entries().count();
        let (old, new) = if draft.image_form == 1 {
            (16, 24)
        } else {
            (24, 16)
        };
        put(&mut image, 14, (entries * old / new).max(1));
    }
    Damaged {
        image: resealed(image),
        refusal: None,
    }
}

/// Ways on that are just allowed: the last lexicon, all of them, an ending beside them, or none but an ending.
pub fn at_the_edge(prng: &mut Prng, draft: &mut Draft) {
    let last = draft.lexicons.len() as u8 - 1;
    let form = draft.image_form;
    let mut entries: Vec<_> = draft.lexicons.iter_mut().flatten().collect();
    let number = prng.below(entries.len());
    let entry = &mut entries[number];
    match prng.below(5) {
        0 => entry.go_on_to(last),
        1 => entry.go_on_to(END),
        _ if form == 1 => entry.go_on_to(0),
        2 => entry.ends = true,
        3 if !entry.lexicons.contains(&last) => entry.lexicons.push(last),
        _ => entry.lexicons = (0..=last).collect(),
    }
}
