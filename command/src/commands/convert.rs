//! `headwords convert`: an image from form 1 to form 2, or back, by the library's own converter.

use crate::arguments::Given;
use crate::commands::assemble::not_written;
use crate::commands::Command;
use crate::failure::{tell_fault, Failure};
use crate::library;
use crate::loaded::{is_image, load_bytes, Loaded};
use crate::names::{names_path, write_names};
use crate::refusals;
use crate::text::image::BLOCK;
use crate::text::{limits, put_in_place, read_source, Fault, Grammar};
use std::path::Path;

pub const COMMAND: Command = Command {
    name: "convert",
    operands: "IMAGE OUT",
    count: 2..=2,
    what: "an image to form 2, or back to form 1",
    options: &[],
    more: "\
The image goes from form 1 to form 2, or from form 2 to form 1, by the form that it has; every word and path has the same
readings as before, in the same order, and from form 1 to form 2 and back it is the same, byte for byte. The names of IMAGE, if
they are there, are written beside OUT. OUT may be IMAGE itself. An image is refused, and nothing written, with

  15  to form 1, where an entry has more than one way on
  16  to form 2, where the image would have more than 128 blocks
",
    run,
};

fn run(given: &Given) -> Result<(), Failure> {
    let (source, out) = (Path::new(&given.operands[0]), Path::new(&given.operands[1]));
    let bytes = read_source(source).map_err(|fault| tell_fault(source, &fault))?;
    if !is_image(&bytes) {
        let what = "is a text and no image; headwords assemble --form 2 makes an image of form 2";
        return Err(tell_fault(source, &Fault::new(0, what)));
    }
    let Loaded { grammar, image, named, .. } = load_bytes(source, bytes)?;
    // Beyond 128 blocks the library refuses, whatever is lent.
    let mut converted = vec![0; BLOCK * converted_blocks(&grammar).min(limits::BLOCKS)];
    if let Some(number) = library::convert(&image, &mut converted).refusal() {
        return Err(tell_fault(source, &Fault::new(0, told(number, &grammar))));
    }
    let (names, beside) = (write_names(&grammar, &converted), names_path(out));
    let files = [(&converted[..], out), (names.as_bytes(), &beside)];
    // An image without names has none to hand on.
    put_in_place(if named { &files } else { &files[..1] }).map_err(not_written)
}

fn converted_blocks(grammar: &Grammar) -> usize {
    let (rules, has_sets) = (grammar.rules.len(), !grammar.sets.all().is_empty());
    grammar.form.other().blocks(rules, has_sets, grammar.entries().len())
}

/// A refusal, with the entry or the count that it is about.
fn told(number: u32, grammar: &Grammar) -> String {
    let told = refusals::told(number);
    match number {
        15 => {
            let entries = grammar.entries().into_iter().enumerate();
            let many = { entries }.find(|(_, (_, entry))| !entry.ways.is_one());
            many.map_or(told.clone(), |(number, (lexicon, entry))| {
                let (form, ways) = (grammar.show_form(&entry.form), grammar.show_ways(entry.ways));
                format!("{told}; entry {number} ({form}) of lexicon {} goes on to {ways}", lexicon.name)
            })
        }
        16 => format!("{told}; it would have {}", converted_blocks(grammar)),
        _ => told,
    }
}

#[cfg(test)]
mod tests {
    use super::*;
    use crate::decode::decode;
    use crate::library::Reply;
    use crate::text::{sealed_image, Form};
    use draw::grammars::grammar;
    use draw::prng::Prng;

    /// What the library converts is what the command would lay out in the other form.
    #[test]
    fn drawn_images_are_converted_as_they_are_laid_out() {
        let mut prng = Prng::new(11);
        let (mut converted, mut refused) = (0, 0);
        for _ in 0..400 {
            let image = grammar(&mut prng).image();
            if library::check(&image).refusal().is_some() {
                continue;
            }
            let mut grammar = decode(&image);
            let blocks = converted_blocks(&grammar);
            let due = match (grammar.form, grammar.has_one_way()) {
                (Form::Two, false) => Some(15),
                _ if blocks > limits::BLOCKS => Some(16),
                _ => None,
            };
            let mut target = vec![7; BLOCK * blocks.min(limits::BLOCKS)];
            let reply = library::convert(&image, &mut target);
            assert_eq!(reply.refusal(), due);
            if due.is_some() {
                assert!(target.iter().all(|&byte| byte == 7));
                refused += 1;
                continue;
            }
            assert_eq!(reply, Reply::All(0));
            grammar.form = grammar.form.other();
            assert!(sealed_image(&grammar) == target);
            converted += 1;
            target.push(7);
            assert_eq!(library::convert(&image, &mut target).refusal(), Some(17));
        }
        assert!(converted > 100, "{converted} converted, {refused} refused");
    }
}
