//! Each sample assembles to an image that document 01's check accepts, and its lists say what it holds.

mod support;

use support::check::{counts, entries, lexicon_counts, pairs, refusal, sets, ways};
use support::{anywhere, assembled, run, sample, sample_path, scratch, SAMPLES};

fn list(list: &str, sample: &str) -> Vec<Vec<String>> {
    let ran = run(anywhere(), &["list".as_ref(), list.as_ref(), sample_path(sample).as_os_str()]);
    assert_eq!((ran.code, ran.stderr.as_str()), (Some(0), ""), "{list} {sample}");
    ran.stdout.lines().map(|line| line.split('\t').map(str::to_string).collect()).collect()
}

fn image_of(name: &str) -> Vec<u8> {
    assembled(&sample(name)).unwrap()
}

#[test]
fn every_sample_is_accepted() {
    let folder = scratch("samples");
    for sample in SAMPLES {
        let ran = run(&folder, &["assemble".as_ref(), sample_path(sample).as_os_str(), sample.as_ref()]);
        assert_eq!((ran.code, ran.stdout.as_str(), ran.stderr.as_str()), (Some(0), "", ""), "{sample}");
        let image = std::fs::read(folder.join(sample)).unwrap();
        assert_eq!(refusal(&image), None, "{sample}");
        assert!(image == image_of(sample), "{sample}: the program and the library differ");
    }
}

#[test]
fn letters_and_pairs_are_listed_as_the_image_has_them() {
    for sample in SAMPLES {
        let image = image_of(sample);
        let letters = list("letters", sample);
        assert_eq!(letters.len(), counts(&image).letters, "{sample}");
        for (k, line) in letters.iter().enumerate() {
            let point = u16::from_le_bytes([image[516 + 2 * k], image[517 + 2 * k]]);
            let letter = char::from_u32(point.into()).unwrap();
            assert_eq!(*line, [(k + 1).to_string(), letter.to_string()], "{sample}");
        }
        let show = |side: u8| match side {
            0 => "0",
            letter => &letters[letter as usize - 1][1],
        };
        let right: Vec<Vec<String>> = (0..)
            .zip(pairs(&image))
            .map(|(k, (lexical, surface)): (usize, _)| {
                vec![k.to_string(), format!("{}:{}", show(lexical), show(surface))]
            })
            .collect();
        assert_eq!(list("pairs", sample), right, "{sample}");
    }
}

#[test]
fn sets_are_listed_as_the_image_has_them() {
    for sample in SAMPLES {
        let image = image_of(sample);
        let letters = list("letters", sample);
        let in_image = sets(&image);
        let listed = list("sets", sample);
        assert_eq!((listed.len(), counts(&image).sets), (in_image.len(), in_image.len()), "{sample}");
        for ((k, line), set) in listed.iter().enumerate().zip(in_image) {
            let number = |letter: &str| letters.iter().position(|line| line[1] == letter).unwrap() as u8 + 1;
            let mut numbers: Vec<u8> = line[2].split(' ').map(number).collect();
            numbers.sort();
            assert_eq!((&line[0], numbers), (&k.to_string(), set), "{sample}");
        }
    }
}

#[test]
fn entries_are_listed_as_the_image_has_them() {
    for sample in SAMPLES {
        let image = image_of(sample);
        let letters = list("letters", sample);
        let listed = list("entries", sample);
        assert_eq!(listed.len(), counts(&image).entries, "{sample}");
        let lexicons = names_by_number(&listed, &lexicon_counts(&image));
        for ((k, line), entry) in listed.iter().enumerate().zip(entries(&image)) {
            let form = match &entry[1..1 + entry[0] as usize] {
                [] => "0".to_string(),
                form => form.iter().map(|&letter| letters[letter as usize - 1][1].as_str()).collect(),
            };
            let (end, next) = ways(&image, entry);
            let next = next.iter().map(|&lexicon| lexicons[lexicon].as_str());
            let ways: Vec<&str> = end.then_some("#").into_iter().chain(next).collect();
            let gloss = u16::from_le_bytes([entry[14], entry[15]]).to_string();
            let image_says = [k.to_string(), form, ways.join(" "), gloss];
            let list_says = [0, 2, 3, 4].map(|column| line[column].clone());
            assert_eq!(list_says, image_says, "{sample}");
        }
    }
}

/// The lexicons' names in order, each of which has to name all entries that the image counts to it.
fn names_by_number(listed: &[Vec<String>], counts: &[usize]) -> Vec<String> {
    let mut rest = listed;
    let mut names = Vec::new();
    for &count in counts {
        let (here, after) = rest.split_at(count);
        assert!(here.iter().all(|line| line[1] == here[0][1]), "lexicon {}", names.len());
        names.push(here[0][1].clone());
        rest = after;
    }
    names
}
