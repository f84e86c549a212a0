//! A case is a file, or none, in the place of the image and an input for the line program to read.

use crate::spelling::line;
use crate::tally::Sorts;
use draw::damage::{damaged, damaged_often};
use draw::grammars::{grammar, widest};
use draw::inputs::Pool;
use draw::prng::Prng;
use other_engine::calls::Known;
use other_engine::draft::{Draft, DraftEntry};
use other_engine::grammar::END;
use other_engine::image::{read, BLOCK};
use other_engine::lines::{answer, answers};

/// What stands where the image is looked for.
pub enum Place {
    File(Vec<u8>),
    Nothing,
    /// A folder is there, and cannot be read as a file.
    Folder,
}

impl Place {
    /// The bytes of the image, of which there are none where it can't be read.
    pub fn bytes(&self) -> &[u8] {
        match self {
            Place::File(bytes) => bytes,
            Place::Nothing | Place::Folder => &[],
        }
    }
}

/// A case with all that is to be printed for it.
pub struct Case {
    pub place: Place,
    pub input: Vec<u8>,
    /// What its grammar is counted for.
    pub sorts: Sorts,
    /// What is printed for each line.
    pub answers: Vec<String>,
    /// Lines left out because their words are too big.
    pub skipped: usize,
    /// The bytes handed to the program at once.
    pub piece: usize,
}

fn entry(form: &[u8], continuation: u8) -> DraftEntry {
    DraftEntry::with_one_way(form.to_vec(), continuation, 0)
}

/// As many equal entries as there are rows, or nearly.
fn about_as_many_as_rows(prng: &mut Prng) -> Draft {
    let form = vec![2; prng.between(1, 3)];
    let count = prng.one_of(&[1, 62, 63, 64, 64, 65, 65, 66, 128]);
    Draft {
        image_form: 1,
        letters: vec![35, 97, 98],
        pairs: vec![(2, 2), (3, 3)],
        sets: Vec::new(),
        tables: Vec::new(),
        lexicons: vec![vec![entry(&form, END); count], vec![entry(&[3], END)]],
    }
}

/// A grammar of any kind.
fn draft(prng: &mut Prng) -> Draft {
    match prng.weighted(&[88, 8, 4]) {
        0 => grammar(prng),
        1 => about_as_many_as_rows(prng),
        _ => widest(prng),
    }
}

/// An image that goes on past the last byte an image can have, and perhaps comes once more at the end.
fn too_long(prng: &mut Prng) -> Vec<u8> {
    let mut image = draft(prng).image();
    let once_more = image.clone();
    // A length held in two bytes would come down to the image's own.
    let round = 65_536 + image.len();
    let length = prng.one_of(&[65_537, 66_048, 131_072, 300_000, round, round]);
    image.resize(length, 0);
    if prng.percent(50) {
        let start = length - once_more.len();
        image[start..].copy_from_slice(&once_more);
    }
    image
}

fn place(prng: &mut Prng) -> Place {
    match prng.weighted(&[72, 16, 2, 4, 4, 2]) {
        0 => Place::File(draft(prng).image()),
        1 => {
            let draft = draft(prng);
            let k = prng.one_of(&[0, 1, 2, 3, 4, 5, 6, 7, 8, 14]);
            Place::File(damaged(prng, &draft, k).image)
        }
        2 => {
            let draft = draft(prng);
            Place::File(damaged_often(prng, &draft).image)
        }
        3 => Place::File(too_long(prng)),
        4 => Place::Nothing,
        _ => Place::Folder,
    }
}

/// The lines, put together with or without a last line end.
fn joined(prng: &mut Prng, lines: &[Vec<u8>]) -> Vec<u8> {
    let mut input = lines.join(&b'\n');
    if !lines.is_empty() && prng.percent(70) {
        input.push(b'\n');
    }
    input
}

/// Lines more, of those that print little, until the input is past what a pipe holds.
fn lengthen(prng: &mut Prng, known: &Known, lines: &mut Vec<Vec<u8>>) {
    let mut brief: Vec<Vec<u8>> = lines
        .iter()
        .filter(|line| !line.contains(&b'\n'))
        .filter(|line| answer(known, line).is_ok_and(|text| text.len() <= 200))
        .cloned()
        .collect();
    brief.push(vec![b'2'; 300]);
    let wanted = prng.between(200_001, 350_000);
    let mut length: usize = lines.iter().map(|line| line.len() + 1).sum();
    while length <= wanted {
        let line = brief[prng.below(brief.len())].clone();
        length += line.len() + 1;
        lines.push(line);
    }
}

fn input(prng: &mut Prng, place: &Place, known: &Known) -> Vec<u8> {
    if prng.percent(2) {
        return Vec::new();
    }
    let pool = Pool::of(prng, known);
    let big = place.bytes().len() > 40 * BLOCK;
    let count = prng.between(1, if big { 12 } else { 40 });
    let mut lines: Vec<Vec<u8>> = (0..count).map(|_| line(prng, known, &pool)).collect();
    // The program may well check its image at each line, so a long input gets a small one.
    if place.bytes().len() < 20 * BLOCK && prng.percent(8) {
        lengthen(prng, known, &mut lines);
    }
    if prng.percent(1) {
        let place = prng.below(lines.len() + 1);
        lines.insert(place, vec![b'7'; 400_000]);
    }
    joined(prng, &lines)
}

/// The input without the lines whose words are too big, what is printed for the others, and how many are left out.
fn settled(known: &Known, input: &[u8]) -> (Vec<u8>, Vec<String>, usize) {
    let mut kept = Vec::new();
    let mut texts = Vec::new();
    let mut skipped = 0;
    let mut last_kept = false;
    for (line, answer) in answers(known, input) {
        last_kept = answer.is_ok();
        match answer {
            Ok(text) => {
                kept.extend(line);
                kept.push(b'\n');
                texts.push(text.to_string());
            }
            Err(_) => skipped += 1,
        }
    }
    if last_kept && input.last() != Some(&b'\n') {
        kept.pop();
    }
    (kept, texts, skipped)
}

/// The next case.
pub fn case(prng: &mut Prng) -> Case {
    let place = place(prng);
    let known = read(place.bytes());
    let input = input(prng, &place, &known);
    let (input, answers, skipped) = settled(&known, &input);
    let piece = if input.len() > 20_000 {
        prng.one_of(&[1_000, 4_096, 65_536, usize::MAX])
    } else {
        prng.one_of(&[1, 2, 3, 255, 256, 257, usize::MAX])
    };
    Case {
        place,
        input,
        sorts: known.map_or(Sorts::default(), |grammar| Sorts::of(&grammar)),
        answers,
        skipped,
        piece,
    }
}

#[cfg(test)]
mod tests {
    use super::settled;
    use draw::grammars::widest;
    use draw::prng::Prng;
    use other_engine::draft::{Draft, DraftEntry};
    use other_engine::image::read;

    #[test]
    fn the_widest_rows_have_241_bytes() {
        let mut prng = Prng::new(1);
        let known = read(&widest(&mut prng).image());
        let line = ["119"; 32].join(" ");
        let (_, texts, _) = settled(&known, line.as_bytes());
        let row = texts[0].lines().nth(1).unwrap();
        assert_eq!(row.len(), 16 * 5 - 1 + 3 + 40 * 4 - 1);
    }

    #[test]
    fn what_is_settled_keeps_line_ends_as_they_were() {
        let known = read(&Draft::luz().image());
        for input in [&b""[..], b"\n", b"5", b"5\n", b"5\n\n", b"\n5"] {
            assert_eq!(settled(&known, input).0, input);
        }
    }

    #[test]
    fn words_too_big_are_left_out() {
        let entry = |continuation| DraftEntry::with_one_way(Vec::new(), continuation, 0);
        let draft = Draft {
            image_form: 1,
            letters: vec![35, 97],
            pairs: vec![(0, 2)],
            sets: Vec::new(),
            tables: Vec::new(),
            lexicons: vec![vec![entry(0), entry(0), entry(0), entry(255)]],
        };
        let known = read(&draft.image());
        let (input, texts, skipped) = settled(&known, b"1\n2\n\n2");
        assert_eq!(input, b"1\n\n");
        assert_eq!(texts, ["refused 10\n", "refused 9\n"]);
        assert_eq!(skipped, 2);
    }
}
