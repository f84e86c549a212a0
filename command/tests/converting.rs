//! Images of form 2 with their names, read, written and converted by the program.

mod support;

use std::fs;
use std::path::{Path, PathBuf};
use support::{edited, names, run, sample, sample_path, scratch, Ran};

/// luz without its empty entry: a stem may end, and go on.
fn luz_two() -> String {
    let text = edited(&sample("luz"), "  0    #       \"singular\"\n", "");
    let text = edited(&text, "LEXICON Noun", "ALTERNATION Forms # Number\n\nLEXICON Noun");
    text.replace("  Number  ", "  Forms  ")
}

/// A folder with the text of luz in form 2, and its image with its names.
fn folder_of(test: &str) -> PathBuf {
    let folder = scratch(test);
    fs::write(folder.join("luz2.txt"), luz_two()).unwrap();
    well(&folder, &["assemble", "luz2.txt", "luz2.img"]);
    folder
}

/// What a command prints that has nothing to tell.
fn well(folder: &Path, arguments: &[&str]) -> String {
    let ran = run(folder, arguments);
    assert_eq!((ran.code, ran.stderr.as_str()), (Some(0), ""), "{arguments:?}");
    ran.stdout
}

fn told(folder: &Path, arguments: &[&str], stderr: &str) {
    let right = Ran { code: Some(1), stdout: String::new(), stderr: stderr.to_string() };
    assert_eq!(run(folder, arguments), right, "{arguments:?}");
}

fn bytes(folder: &Path, file: &str) -> Vec<u8> {
    fs::read(folder.join(file)).unwrap()
}

fn assemble(folder: &Path, sample: &str, arguments: &[&str]) {
    let text = sample_path(sample);
    well(folder, &[&["assemble", text.to_str().unwrap()], arguments].concat());
}

#[test]
fn names_have_the_alternations() {
    let folder = folder_of("converting-names");
    let right = fs::read_to_string(folder.join("luz2.img.names")).unwrap();
    assert!(right.contains("\nLEXICON Number\nALTERNATION Forms # Number\nGLOSS 0 \"luz\"\n"), "{right}");
    let text = well(&folder, &["text", "luz2.img"]);
    assert!(text.contains("\nALTERNATION Forms # Number\n") && text.contains("\n  luZ Forms \"luz\"\n"), "{text}");
    fs::write(folder.join("again.txt"), text).unwrap();
    well(&folder, &["assemble", "again.txt", "again.img"]);
    for end in ["", ".names"] {
        assert!(bytes(&folder, &format!("again.img{end}")) == bytes(&folder, &format!("luz2.img{end}")), "{end}");
    }
    let lines = "0\tNoun\tluZ\t# Number\t0\tluz\n1\tNoun\tluc\t# Number\t1\tluc\n2\tNumber\t+es\t#\t2\tplural\n";
    assert_eq!(well(&folder, &["list", "entries", "luz2.img"]), lines);
    for (line, what) in [
        ("ALTERNATION Noun # Number", "0: Noun cannot be the name of an ALTERNATION"),
        ("ALTERNATION # # Number", "0: # cannot be the name of an ALTERNATION"),
        ("ALTERNATION FORM # Number", "0: FORM cannot be the name of an ALTERNATION"),
        ("ALTERNATION A #\nALTERNATION A #", "0: A cannot be the name of an ALTERNATION"),
        ("ALTERNATION Forms", "0: ALTERNATION Forms does not name lexicons, each once"),
        ("ALTERNATION Forms # #", "0: ALTERNATION Forms does not name lexicons, each once"),
        ("ALTERNATION Forms Case", "0: ALTERNATION Forms does not name lexicons, each once"),
        ("ALTERNATION Forms \"Number\"", "8: this names nothing"),
    ] {
        fs::write(folder.join("luz2.img.names"), edited(&right, "ALTERNATION Forms # Number", line)).unwrap();
        let ran = run(&folder, &["list", "letters", "luz2.img"]);
        assert_eq!(ran.stderr, format!("luz2.img.names:{what}; these names are not used\n"), "{line}");
    }
}

#[test]
fn there_and_back_is_the_same_bytes() {
    for sample in ["luz", "quichua"] {
        let folder = scratch(&format!("converting-{sample}"));
        assemble(&folder, sample, &["one.img"]);
        assemble(&folder, sample, &["--form", "2", "two.img"]);
        well(&folder, &["convert", "one.img", "converted.img"]);
        well(&folder, &["convert", "converted.img", "back.img"]);
        for end in ["", ".names"] {
            let file = |name: &str| bytes(&folder, &format!("{name}.img{end}"));
            assert!(file("converted") == file("two") && file("back") == file("one"), "{sample}{end}");
        }
        // The text of a converted image gives its form, though form 1 would serve.
        fs::write(folder.join("two.txt"), well(&folder, &["text", "two.img"])).unwrap();
        well(&folder, &["assemble", "two.txt", "again.img"]);
        assert!(bytes(&folder, "again.img") == bytes(&folder, "two.img"), "{sample}");
    }
}

#[test]
fn an_image_may_be_converted_in_its_place_and_without_names() {
    let folder = scratch("converting-place");
    assemble(&folder, "luz", &["luz.img"]);
    let one = bytes(&folder, "luz.img");
    well(&folder, &["convert", "luz.img", "luz.img"]);
    assert!(bytes(&folder, "luz.img") != one);
    assert_eq!(well(&folder, &["read", "luz.img", "luz"]), "luz\tluz\tluZ (luz) 0 (singular)\tl:l u:u Z:z\n\n");
    fs::remove_file(folder.join("luz.img.names")).unwrap();
    well(&folder, &["convert", "luz.img", "back.img"]);
    assert!(bytes(&folder, "back.img") == one);
    assert_eq!(names(&folder), ["back.img", "luz.img"]);
}

#[test]
fn what_cannot_be_converted_is_told_and_nothing_is_written() {
    let folder = folder_of("converting-refused");
    let what = "refused 15: no conversion to form 1: an entry has more than one way on, an ending counted as a way";
    let entry = "entry 0 (luZ) of lexicon Noun goes on to # Number";
    told(&folder, &["convert", "luz2.img", "one.img"], &format!("luz2.img:0: {what}; {entry}\n"));
    assemble(&folder, "spanish", &["spanish.img"]);
    let what = "refused 16: the converted image would have more than 128 blocks; it would have 145";
    told(&folder, &["convert", "spanish.img", "two.img"], &format!("spanish.img:0: {what}\n"));
    let what = "is a text and no image; headwords assemble --form 2 makes an image of form 2";
    told(&folder, &["convert", "luz2.txt", "two.img"], &format!("luz2.txt:0: {what}\n"));
    let mut damaged = bytes(&folder, "luz2.img");
    damaged[600] ^= 1;
    fs::write(folder.join("damaged.img"), damaged).unwrap();
    let what = "damaged.img:0: refused 2: a check or block number is wrong\n";
    told(&folder, &["convert", "damaged.img", "two.img"], what);
    let left = ["damaged.img", "luz2.img", "luz2.img.names", "luz2.txt", "spanish.img", "spanish.img.names"];
    assert_eq!(names(&folder), left);
    let what = "2796 entries; an image of form 2, which --form 2 asks for, has room for 2457 with this grammar's rules";
    let spanish = sample_path("spanish");
    let text = sample("spanish");
    let entries = text.lines().enumerate().skip_while(|(_, line)| !line.starts_with("LEXICON"));
    let line = 1 + { entries }.filter(|(_, line)| line.starts_with("  ")).nth(2457).unwrap().0;
    told(
        &folder,
        &["assemble", "--form", "2", spanish.to_str().unwrap(), "two.img"],
        &format!("{}:{line}: {what}\n", spanish.display()),
    );
    let what = "2 continuations, # Number; an image of form 1, which --form 1 asks for, has one for each entry";
    let lines: Vec<usize> =
        (1..).zip(luz_two().lines()).filter(|(_, line)| line.contains("  Forms  ")).map(|(at, _)| at).collect();
    let stderr: String = lines.iter().map(|line| format!("luz2.txt:{line}: {what}\n")).collect();
    told(&folder, &["assemble", "--form", "1", "luz2.txt", "one.img"], &stderr);
    assert_eq!(names(&folder), left);
}

#[test]
fn words_paths_and_headwords_by_form_2() {
    let folder = folder_of("converting-words");
    let luz = "luz\tluz\tluZ (luz)\tl:l u:u Z:z\n";
    let luces = "luces\tluz\tluZ (luz) +es (plural)\tl:l u:u Z:c +:0 e:e s:s\n";
    let made_up = "luces\tluc\tluc (luc) +es (plural)\tl:l u:u c:c +:0 e:e s:s\n";
    let read = well(&folder, &["read", "luz2.img", "luz", "luces", "luzes"]);
    assert_eq!(read, format!("{luz}\n{luces}{made_up}\nluzes\t+?\n\n"));
    // A path that may end comes before those that go on.
    assert_eq!(well(&folder, &["forms", "luz2.img", "luz"]), format!("{luz}{luces}\n"));
    assert_eq!(well(&folder, &["generate", "luz2.img", "luZ"]), format!("{luz}\n"));
    assert_eq!(well(&folder, &["generate", "luz2.img", "luZ", "+es"]), format!("{luces}\n"));
    let ran = run(&folder, &["generate", "luz2.img", "+es"]);
    assert_eq!(ran.stderr, "headwords: refused 12: +es (plural) is in lexicon Number, and words begin in Noun\n");
    let ran = run(&folder, &["generate", "luz2.img", "luZ", "luc"]);
    assert_eq!(
        ran.stderr,
        "headwords: refused 12: luc (luc) is in lexicon Noun, and lexicon Number follows luZ (luz)\n"
    );
}

#[test]
fn several_lexicons_that_follow_are_told() {
    let folder = scratch("converting-follow");
    let text = edited(&luz_two(), "ALTERNATION Forms # Number", "ALTERNATION Forms Number Case");
    fs::write(folder.join("luz.txt"), edited(&text, "\nEND", "\nLEXICON Case\n  +ul #\nEND")).unwrap();
    for (path, what) in [
        (&["luZ"][..], "the word does not end after luZ (luz): lexicons Number, Case follow"),
        (&["luZ", "luc"], "luc (luc) is in lexicon Noun, and lexicons Number, Case follow luZ (luz)"),
        (&["luZ", "+ul", "+es"], "+es (plural) cannot follow +ul, which ends the word"),
    ] {
        let ran = run(&folder, &[&["generate", "luz.txt"], path].concat());
        assert_eq!((ran.code, ran.stderr), (Some(1), format!("headwords: refused 12: {what}\n")));
    }
}

#[test]
fn why_a_word_has_no_reading_by_form_2() {
    let folder = folder_of("converting-why");
    let right = "\
furthest without rules: luze|l
  lexical  l u Z + e
  surface  l u z 0 e
  entries  luZ (luz)
  no entry of lexicon Number goes on with l
    +e|s (plural)  no pair s:l
without any rule it has no reading either: entries and pairs do not make this word
";
    let why = well(&folder, &["why", "luz2.img", "luzel"]);
    assert!(why.starts_with("luzel: no reading\nfurthest: luz|el\n") && why.ends_with(right), "{why}");
    let right = "\
luce: no reading
furthest: luce|
  lexical  l u Z + e
  surface  l u c 0 e
  entries  luZ (luz)
  the word ends, and no entry of lexicon Number ends with it
    +e|s (plural)  goes on with s
";
    let why = well(&folder, &["why", "luz2.img", "luce"]);
    assert!(why.starts_with(right), "{why}");
    // Where an entry only ends, what is left is told.
    let why = well(&folder, &["why", "luz2.img", "lucesu"]);
    assert!(why.contains("    +es| (plural)  ends the word, and u is left\n"), "{why}");
    let why = well(&folder, &["why", "luz2.img", "luzes"]);
    assert!(why.contains("without rule \"Z becomes c before +e\" it has 1 reading:\n"), "{why}");
}

#[test]
fn quichua_without_empty_entries_reads_the_same() {
    let folder = scratch("converting-compare");
    let letters: Vec<String> = {
        let quichua = sample_path("quichua");
        let listed = well(&folder, &["list", "letters", quichua.to_str().unwrap()]);
        listed.lines().map(|line| line.split('\t').nth(1).unwrap().to_string()).collect()
    };
    let numbers = fs::read_to_string(sample_path("quichua").with_extension("words")).unwrap();
    let word =
        |line: &str| line.split(' ').map(|n| letters[n.parse::<usize>().unwrap() - 1].as_str()).collect::<String>();
    let words: String = numbers.lines().map(|line| word(line) + "\n").collect();
    fs::write(folder.join("words.txt"), words).unwrap();
    let (old, new) = (sample_path("quichua"), sample_path("quichua_ways"));
    let [old, new] = [&old, &new].map(|path| path.to_str().unwrap());
    let ran = run(&folder, &["compare", "--no-empty", old, new, "words.txt"]);
    let stderr = "400 words: 0 gained, 0 lost, 0 changed, 400 as before\n".to_string();
    assert_eq!(ran, Ran { code: Some(0), stdout: String::new(), stderr });
    // With the empty entries every word that has a reading has changed; and a way less is found.
    assert_eq!(run(&folder, &["compare", old, new, "words.txt"]).code, Some(1));
    let less = edited(&sample("quichua_ways"), "SuffixPl2    Pl2 Cond Gen Top #", "SuffixPl2    Pl2 Cond Top #");
    fs::write(folder.join("less.txt"), less).unwrap();
    let ran = run(&folder, &["compare", "--no-empty", old, "less.txt", "words.txt"]);
    assert_eq!(ran.code, Some(1), "{}", ran.stderr);
}
