//! The verdict on a grammar, as a text and as an image, and what it holds.

mod support;

use std::fs;
use std::process::Command;
use support::{assembled, run, sample, sample_path, scratch, Ran, SAMPLES};

fn accepted(counts: [usize; 8], cksum: &str, names: &str) -> Ran {
    let things = ["form", "letters", "pairs", "sets", "rules", "lexicons", "entries", "blocks"];
    let counts: String = things.iter().zip(counts).map(|(thing, count)| format!("{thing}\t{count}\n")).collect();
    let stdout = format!("accepted\n{counts}cksum\t{cksum}\nnames\t{names}\nwarnings\t0\n");
    Ran { code: Some(0), stdout, stderr: String::new() }
}

/// The sum that the tool of that name prints.
fn cksum(folder: &std::path::Path, file: &str) -> String {
    let output = Command::new("cksum").arg(folder.join(file)).output().unwrap();
    String::from_utf8(output.stdout).unwrap().split(' ').next().unwrap().to_string()
}

#[test]
fn the_samples_as_texts_and_as_images() {
    let folder = scratch("check-samples");
    let counts = [
        [1, 9, 8, 0, 1, 2, 4, 6],
        [1, 35, 40, 2, 7, 16, 576, 31],
        [1, 42, 49, 0, 7, 8, 2796, 102],
        [2, 35, 40, 2, 7, 15, 562, 39],
    ];
    for (sample, counts) in SAMPLES.into_iter().zip(counts) {
        let text = sample_path(sample);
        run(&folder, &["assemble".as_ref(), text.as_os_str(), "grammar.img".as_ref()]);
        let sum = cksum(&folder, "grammar.img");
        assert_eq!(run(&folder, &["check".as_ref(), text.as_os_str()]), accepted(counts, &sum, "yes"));
        assert_eq!(run(&folder, &["check", "grammar.img"]), accepted(counts, &sum, "yes"));
        fs::remove_file(folder.join("grammar.img.names")).unwrap();
        assert_eq!(run(&folder, &["check", "grammar.img"]), accepted(counts, &sum, "no"));
    }
}

#[test]
fn images_that_are_refused() {
    let folder = scratch("check-refused");
    let image = assembled(&sample("luz")).unwrap();
    let mut altered = image.clone();
    altered[600] ^= 1;
    let mut unspelled = image.clone();
    unspelled[5 * 512 + 5] = 8;
    support::check::seal(&mut unspelled);
    let mut marked = assembled(&sample("luz").replace("  Number  ", "  # Number  ")).unwrap();
    marked[5 * 512 + 4 + 13] = 2;
    support::check::seal(&mut marked);
    let images: [(&[u8], &str); 7] = [
        (&[], "refused 1: image length 0, over 65,536, or no multiple of 512"),
        (&image[..700], "refused 1: image length 0, over 65,536, or no multiple of 512"),
        (&[0; 65_537], "refused 1: image length 0, over 65,536, or no multiple of 512"),
        (&altered, "refused 2: a check or block number is wrong"),
        (&image[..512], "refused 3: form (1 or 2), counts, block total, "),
        (&marked, "refused 8: lexicon counts do not add up to the entries, or an entry breaks its layout; in form 2, "),
        (&unspelled, "refused 14: an entry can never be spelled: a letter of its form is the lexical side of no pair"),
    ];
    for (image, verdict) in images {
        fs::write(folder.join("some.img"), image).unwrap();
        let ran = run(&folder, &["check", "some.img"]);
        assert_eq!((ran.code, ran.stderr.as_str()), (Some(1), ""));
        assert!(ran.stdout.starts_with(verdict) && ran.stdout.lines().count() == 1, "{}", ran.stdout);
    }
}

#[test]
fn a_text_with_a_fault() {
    let folder = scratch("check-faulty");
    fs::write(folder.join("luz.txt"), sample("luz").replace("luc  Number", "luk  Number")).unwrap();
    let ran = run(&folder, &["check", "luz.txt"]);
    assert_eq!((ran.code, ran.stdout.as_str()), (Some(1), "faulty\n"));
    assert!(ran.stderr.starts_with("luz.txt:") && ran.stderr.contains("k (U+006B) is no letter of the alphabet"));
}

#[test]
fn warnings_are_counted_and_end_with_0() {
    let folder = scratch("check-warnings");
    fs::write(folder.join("luz.txt"), sample("luz").replace("u z Z", "u z Z x")).unwrap();
    let ran = run(&folder, &["check", "luz.txt"]);
    assert_eq!(ran.code, Some(0));
    assert!(ran.stdout.starts_with("accepted\n") && ran.stdout.ends_with("warnings\t1\n"));
    assert!(ran.stderr.contains(": warning: letter x (U+0078) is in no pair"));
    run(&folder, &["assemble", "luz.txt", "luz.img"]);
    let ran = run(&folder, &["check", "luz.img"]);
    assert_eq!(ran.stderr, "luz.img:0: warning: letter x (U+0078) is in no pair: no form and no word has it\n");
}

#[test]
fn what_cannot_be_read_ends_with_2() {
    let folder = scratch("check-missing");
    for name in ["none.img", "."] {
        let ran = run(&folder, &["check", name]);
        assert_eq!((ran.code, ran.stdout.as_str()), (Some(2), ""));
        assert!(ran.stderr.starts_with(&format!("{name}:0: cannot be read: ")));
    }
}
