//! Images back to grammars and to text, by the names beside them and without.

mod support;

use draw::grammars::grammar;
use draw::prng::Prng;
use headwords_command::{decode, read_grammar, sealed_image, written};
use std::fs;
use std::path::{Path, PathBuf};
use support::{assembled, names, run, sample, sample_path, scratch, Ran, SAMPLES};

/// A folder with the image of a sample, `grammar.img`, and its names.
fn folder_of(test: &str, sample: &str) -> PathBuf {
    let folder = scratch(test);
    let ran = run(&folder, &["assemble".as_ref(), sample_path(sample).as_os_str(), "grammar.img".as_ref()]);
    assert_eq!(ran, Ran { code: Some(0), stdout: String::new(), stderr: String::new() });
    assert_eq!(names(&folder), ["grammar.img", "grammar.img.names"]);
    folder
}

/// What a command prints that has nothing to tell.
fn printed(folder: &Path, arguments: &[&str]) -> String {
    let ran = run(folder, arguments);
    assert_eq!((ran.code, ran.stderr.as_str()), (Some(0), ""), "{arguments:?}");
    ran.stdout
}

#[test]
fn the_text_of_a_sample_gives_its_image() {
    for sample in SAMPLES {
        let folder = folder_of(&format!("images-{sample}"), sample);
        let image = fs::read(folder.join("grammar.img")).unwrap();
        let named = printed(&folder, &["text", "grammar.img"]);
        assert!(assembled(&named).unwrap() == image, "{sample}, with names");
        fs::remove_file(folder.join("grammar.img.names")).unwrap();
        let unnamed = printed(&folder, &["text", "grammar.img"]);
        assert!(assembled(&unnamed).unwrap() == image, "{sample}, without names");
        assert!(unnamed != named);
    }
}

#[test]
fn an_image_with_its_names_lists_what_its_text_does() {
    for sample in SAMPLES {
        let folder = folder_of(&format!("images-lists-{sample}"), sample);
        let text = sample_path(sample);
        for list in ["letters", "pairs", "entries"] {
            let right = printed(&folder, &["list", list, text.to_str().unwrap()]);
            assert_eq!(printed(&folder, &["list", list, "grammar.img"]), right, "{sample}");
        }
    }
    let folder = folder_of("images-lists-sets", "quichua");
    // The order in which a text lists the letters of a set is not in an image.
    assert_eq!(printed(&folder, &["list", "sets", "grammar.img"]), "0\tFtr\tn r y\n1\tCPos\tq ǧ Q\n");
}

#[test]
fn without_names_all_is_called_by_its_number() {
    let folder = folder_of("images-unnamed", "quichua");
    fs::remove_file(folder.join("grammar.img.names")).unwrap();
    assert_eq!(printed(&folder, &["list", "sets", "grammar.img"]), "0\tSet0\tn r y\n1\tSet1\tq ǧ Q\n");
    let text = printed(&folder, &["text", "grammar.img"]);
    assert!(text.contains("\nRULE \"Rule0\" 6 5\n") && text.contains("\nLEXICON Lexicon15\n"));
    let folder = folder_of("images-unnamed-luz", "luz");
    fs::remove_file(folder.join("grammar.img.names")).unwrap();
    let right = "0\tLexicon0\tluZ\tLexicon1\t0\t\n1\tLexicon0\tluc\tLexicon1\t1\t\n2\tLexicon1\t0\t#\t2\t\n3\tLexicon1\t+es\t#\t3\t\n";
    assert_eq!(printed(&folder, &["list", "entries", "grammar.img"]), right);
}

#[test]
fn drawn_images_come_back_as_they_were() {
    let mut prng = Prng::new(7);
    let mut texts = 0;
    for _ in 0..500 {
        let image = grammar(&mut prng).image();
        if support::check::refusal(&image).is_some() {
            continue;
        }
        let decoded = decode(&image);
        assert!(sealed_image(&decoded) == image);
        if let Ok(text) = written(&decoded) {
            let read = read_grammar(text.as_bytes()).map_err(|faults| faults.by_line());
            assert!(sealed_image(&read.unwrap()) == image, "{text}");
            texts += 1;
        }
    }
    assert!(texts > 200, "{texts}");
}

/// luz with one code point of its image changed: letter `number` becomes `point`.
fn with_letter(number: usize, point: u16) -> Vec<u8> {
    let mut image = assembled(&sample("luz")).unwrap();
    image[512 + 2 + 2 * number..][..2].copy_from_slice(&point.to_le_bytes());
    support::check::seal(&mut image);
    image
}

#[test]
fn what_no_text_can_say_is_told() {
    let folder = scratch("images-unsaid");
    for (point, shown) in [(32, "U+0020"), (9, "U+0009"), (0xA0, "U+00A0"), (59, "; (U+003B)"), (34, "\" (U+0022)")] {
        fs::write(folder.join("odd.img"), with_letter(2, point)).unwrap();
        let ran = run(&folder, &["text", "odd.img"]);
        let stderr = format!("odd.img:0: letter 2 is {shown}, which no text can have for a letter\n");
        assert_eq!(ran, Ran { code: Some(1), stdout: String::new(), stderr });
    }
    let mut image = assembled(&sample("quichua")).unwrap();
    image[3 * 512 + 4..][..16].fill(0);
    support::check::seal(&mut image);
    // With an empty set the columns may be refused; then there is nothing to write.
    assert_eq!(support::check::refusal(&image), None);
    fs::write(folder.join("odd.img"), image).unwrap();
    let told = run(&folder, &["text", "odd.img"]).stderr;
    assert_eq!(told, "odd.img:0: set Set0 has no letters, and a text has no such set\n");
    let keyword = "BOUNDARY #\nNULL 0\nANY @\nALPHABET e N D\nPAIRS e:e N:N D:D\nLEXICON A\neND #\nEND\n";
    let mut image = assembled(keyword).unwrap();
    image[512 + 4 + 2] = b'E';
    support::check::seal(&mut image);
    fs::write(folder.join("odd.img"), image).unwrap();
    let told = run(&folder, &["text", "odd.img"]).stderr;
    assert_eq!(told, "odd.img:0: the form of entry 0 is END, which a text takes for a keyword\n");
}

#[test]
fn the_null_and_any_are_no_letters() {
    for (number, point, line) in [(2, '0', "NULL -\nANY @\n"), (3, '@', "NULL 0\nANY -\n")] {
        let text = written(&decode(&with_letter(number, point as u16))).unwrap();
        assert!(text.contains(line), "{text}");
    }
}

#[test]
fn names_that_are_not_the_images_own_are_told_and_not_used() {
    let folder = folder_of("images-names", "quichua");
    let right = fs::read_to_string(folder.join("grammar.img.names")).unwrap();
    let edits: [(&str, &str, &str); 15] = [
        ("CKSUM 4239684411", "CKSUM 1", "0: names of another image: its cksum is 1, and this image's 4239684411"),
        ("CKSUM 4239684411\n", "", "0: CKSUM is missing"),
        ("NULL 0\n", "", "0: NULL or ANY is missing, or is not one character"),
        ("ANY @", "ANY @@", "0: NULL or ANY is missing, or is not one character"),
        ("ANY @", "ANY 0", "0: NULL or ANY is a letter, or they are the same"),
        ("ANY @", "ANY a", "0: NULL or ANY is a letter, or they are the same"),
        ("ANY @", "ANY \u{10000}", "0: NULL or ANY is a letter, or they are the same"),
        ("SUBSET Ftr\n", "", "0: 1 times SUBSET, where the image has 2"),
        ("SUBSET Ftr\n", "SUBSET CPos\n", "0: CPos cannot be the name of set or lexicon 1"),
        ("SUBSET Ftr\n", "SUBSET q\n", "0: q cannot be the name of set or lexicon 0"),
        ("SUBSET Ftr\n", "SUBSET RULE\n", "0: RULE cannot be the name of set or lexicon 0"),
        ("SUBSET Ftr\n", "SUBSET Ftr y\n", "5: this names nothing"),
        ("SUBSET Ftr\n", "SUBSET \"Ftr\n", "5: a quotation mark without its partner in the same line"),
        ("GLOSS 1 ", "GLOSS 0 ", "0: entry 0 has two glosses"),
        ("GLOSS 0 ", "GLOSS 3000 ", "0: there is no entry 3000 with a gloss in words"),
    ];
    for (from, to, told) in edits {
        fs::write(folder.join("grammar.img.names"), support::edited(&right, from, to)).unwrap();
        let ran = run(&folder, &["list", "sets", "grammar.img"]);
        assert_eq!(ran.stderr, format!("grammar.img.names:{told}; these names are not used\n"));
        assert_eq!((ran.code, ran.stdout.as_str()), (Some(0), "0\tSet0\tn r y\n1\tSet1\tq ǧ Q\n"));
    }
}

#[test]
fn an_image_that_is_refused_is_not_loaded() {
    let folder = folder_of("images-refused", "luz");
    let mut image = fs::read(folder.join("grammar.img")).unwrap();
    image[600] ^= 1;
    fs::write(folder.join("grammar.img"), image).unwrap();
    for arguments in [&["text", "grammar.img"][..], &["list", "letters", "grammar.img"]] {
        let stderr = "grammar.img:0: refused 2: a check or block number is wrong\n".to_string();
        assert_eq!(run(&folder, arguments), Ran { code: Some(1), stdout: String::new(), stderr });
    }
}
