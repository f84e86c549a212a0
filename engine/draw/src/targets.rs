//! Targets for the converter are mostly as long as the converted image, and otherwise longer or shorter by a byte, a block, or much.

use crate::prng::Prng;
use other_engine::calls::Known;
use other_engine::conversion::converted;
use other_engine::image::BLOCK;

/// The length of a target for this image.
pub fn target_length(prng: &mut Prng, known: &Known, image: &[u8]) -> usize {
    let own = image.len();
    match converted(known) {
        Ok(other) if prng.percent(60) => other.len(),
        Ok(other) => wrong_length(prng, own, other.len()),
        Err(_) => prng.one_of(&[0, 0, 1, own, own.saturating_sub(BLOCK), own + BLOCK, 65_536]),
    }
}

/// A length that is not this one.
fn wrong_length(prng: &mut Prng, own: usize, right: usize) -> usize {
    let wrong = match prng.below(8) {
        0 => 0,
        1 => right - 1,
        2 => right + 1,
        3 => right - BLOCK,
        4 => right + BLOCK,
        5 => own,
        6 => prng.one_of(&[65_536, 65_537, 66_048]),
        _ => prng.below(right),
    };
    if wrong == right {
        right + 1
    } else {
        wrong
    }
}

#[cfg(test)]
mod tests {
    use crate::grammars::{at_border, grammar};
    use crate::inputs::{path_bytes, Pool};
    use crate::prng::Prng;
    use other_engine::calls::{analyse, generate};
    use other_engine::conversion::converted;
    use other_engine::image::read;

    #[test]
    fn conversion_is_met_in_every_way_and_keeps_all_rows() {
        let mut prng = Prng::new(1);
        // To form 2, to form 1, refused by 15 and by 16.
        let mut met = [0; 4];
        for _ in 0..150 {
            let draft = match prng.below(10) {
                0 => at_border(&mut prng, 1, 1),
                _ => grammar(&mut prng),
            };
            let image = draft.image();
            let known = read(&image);
            let Ok(grammar) = &known else { continue };
            let place = match converted(&known) {
                Err(k) => usize::from(k) - 13,
                Ok(other) => {
                    let after = read(&other);
                    assert_eq!(converted(&after), Ok(image));
                    let pool = Pool::of(&mut prng, &known);
                    for _ in 0..2 {
                        let word = pool.word(&mut prng, grammar);
                        assert_eq!(analyse(&known, &word), analyse(&after, &word));
                    }
                    for path in &pool.paths[..pool.paths.len().min(2)] {
                        let path = path_bytes(path);
                        assert_eq!(generate(&known, &path), generate(&after, &path));
                    }
                    grammar.image_form - 1
                }
            };
            met[place] += 1;
        }
        assert!(met.iter().all(|&count| count > 5), "{met:?}");
    }
}
