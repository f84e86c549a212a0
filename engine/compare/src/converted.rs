//! Conversions are compared as other calls are, and are of several sorts, by what is converted and by what is refused.

use crate::lent::Lent;
use crate::library;
use crate::met::met;
use crate::tally::Kind;
use crate::{Image, Outcome, Run};
use draw::grammars::at_border;
use draw::inputs::Pool;
use draw::targets::target_length;
use other_engine::conversion::{convert_reply, converted};
use other_engine::draft::Draft;
use other_engine::image::BLOCK;
use other_engine::Grammar;

/// The sorts of conversions that should be met: those that are converted, then those refused with 15, with 16 and with 17.
pub const SORTS: [&str; 19] = [
    "form 2 to form 1",
    "form 1 to form 2",
    "a block more",
    "a block less",
    "128 blocks",
    "lexicon 63",
    "sets",
    "there and back",
    "an ending beside a lexicon",
    "two lexicons",
    "several ways past the first block",
    "several ways and no target",
    "a block too many",
    "a block too many and no target",
    "a byte too few",
    "a byte too many",
    "a block too few for the target",
    "the length of the image itself",
    "no target",
];

/// The sorts that a conversion is of, by an accepted image, into so many bytes.
fn sorts(grammar: &Grammar, own: usize, room: usize) -> Vec<&'static str> {
    let mut draft = Draft::of(grammar);
    draft.image_form = 3 - grammar.image_form;
    let other = draft.unsealed().len();
    let several = grammar.entries.iter().position(|entry| entry.ways() > 1);
    if let Some(first) = several {
        let entry = &grammar.entries[first];
        return met(&[
            ("an ending beside a lexicon", entry.ends),
            ("two lexicons", !entry.ends),
            ("several ways past the first block", first >= 21),
            ("several ways and no target", room == 0),
        ]);
    }
    if other > 128 * BLOCK {
        return met(&[
            ("a block too many", other == 129 * BLOCK),
            ("a block too many and no target", room == 0),
        ]);
    }
    if other != room {
        return met(&[
            ("a byte too few", room + 1 == other),
            ("a byte too many", room == other + 1),
            ("a block too few for the target", room + BLOCK == other),
            ("the length of the image itself", room == own),
            ("no target", room == 0),
        ]);
    }
    met(&[
        ("form 2 to form 1", grammar.image_form == 2),
        ("form 1 to form 2", grammar.image_form == 1),
        ("a block more", own < other),
        ("a block less", other < own),
        ("128 blocks", other == 128 * BLOCK),
        (
            "lexicon 63",
            grammar.entries.iter().any(|entry| entry.lexicons == [63]),
        ),
        ("sets", !grammar.sets.is_empty()),
    ])
}

impl Run {
    /// Calls the converter, and at times again with what it left, and other calls on that.
    pub fn convert(&mut self, image: &Image, pool: &Pool) {
        let room = target_length(&mut self.prng, &image.known, &image.bytes);
        self.converting(image, room);
        if !self.prng.percent(30) {
            return;
        }
        if let Ok(bytes) = converted(&image.known) {
            let other = self.image(bytes);
            self.any_call(&other, pool);
            if !self.over() {
                self.converting(&other, image.bytes.len());
                self.tally.count_conversion(&["there and back"]);
            }
        }
    }

    /// Images that just can be converted and that just can't, for their length or for one late entry, into targets that are as long, shorter and longer.
    pub fn longest_conversions(&mut self) {
        for (image_form, over, forks) in [(1, 0, false), (2, 0, false), (1, 1, false), (2, 0, true)]
        {
            let mut draft = at_border(&mut self.prng, image_form, over);
            let late = draft
                .lexicons
                .last_mut()
                .and_then(|fillers| fillers.last_mut());
            late.expect("an entry").lexicons.extend(forks.then_some(0));
            let image = self.image(draft.image());
            let right = converted(&image.known).map_or(129 * BLOCK, |other| other.len());
            for room in [right, image.bytes.len(), 128 * BLOCK, right - 1, 0] {
                if !self.over() {
                    self.converting(&image, room);
                }
            }
        }
    }

    /// One conversion into so many bytes.
    fn converting(&mut self, image: &Image, room: usize) {
        let before = self.prng.bytes(room);
        let mut expected = before.clone();
        let reply = convert_reply(&image.known, &mut expected);
        let mut target = Lent::new(&mut self.prng, &before);
        self.under_way(Kind::Convert);
        let got = library::convert(&image.lent, &mut target);
        self.compared(Outcome {
            kind: Kind::Convert,
            given: &[("image", &image.bytes)],
            entry: None,
            reply: (reply, got),
            written: &[("bytes of the target", &before, &expected, &target)],
            kept: &[("image", &image.bytes, &image.lent)],
        });
        if let Ok(grammar) = &image.known {
            let sorts = sorts(grammar, image.bytes.len(), room);
            self.tally.count_conversion(&sorts);
        }
    }
}
