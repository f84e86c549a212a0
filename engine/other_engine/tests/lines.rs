//! What the document says of the line program holds of the second engine's printing.

use other_engine::calls::Known;
use other_engine::draft::{Draft, DraftEntry};
use other_engine::image::read;
use other_engine::lines::{answer, answers, lines, word};
use other_engine::pairings::TooBig;

fn luz() -> Known {
    read(&Draft::luz().image())
}

/// All that is printed for an input, under a grammar small enough for every word of it.
fn printed(known: &Known, input: &[u8]) -> String {
    answers(known, input)
        .into_iter()
        .map(|(_, answer)| answer.unwrap().to_string())
        .collect()
}

/// One lexicon of so many equal entries, each the single letter 2.
fn equal_entries(count: usize) -> Known {
    let entry = DraftEntry::with_one_way(vec![2], 255, 0);
    let draft = Draft {
        image_form: 1,
        letters: vec![35, 97],
        pairs: vec![(2, 2)],
        sets: Vec::new(),
        tables: Vec::new(),
        lexicons: vec![vec![entry; count]],
    };
    read(&draft.image())
}

#[test]
fn the_two_lines_of_the_document_print_whole() {
    let whole = "all 2\n0 3 | 3 5 6 0 2 4\n1 3 | 3 5 1 0 2 4\nnone 0\n";
    assert_eq!(printed(&luz(), b"5 7 3 4 6\n5 7 8 4 6\n"), whole);
    assert_eq!(printed(&luz(), b"5 7 3 4 6\n5 7 8 4 6"), whole);
}

#[test]
fn a_last_line_may_lack_its_line_end() {
    assert_eq!(printed(&luz(), b"5 7 8"), "all 1\n0 2 | 3 5 7\n");
    assert_eq!(printed(&luz(), b"5 7 8\n"), "all 1\n0 2 | 3 5 7\n");
}

#[test]
fn an_empty_input_prints_nothing() {
    assert_eq!(printed(&luz(), b""), "");
    assert_eq!(printed(&read(b""), b""), "");
}

#[test]
fn lines_are_what_line_ends_leave() {
    let none: [&[u8]; 0] = [];
    assert_eq!(lines(b""), none);
    assert_eq!(lines(b"\n"), [b""]);
    assert_eq!(lines(b"\n\n"), [b"", b""]);
    assert_eq!(lines(b"5\n\n7"), [&b"5"[..], b"", b"7"]);
    assert_eq!(lines(b"5\n7\n\n"), [&b"5"[..], b"7", b""]);
}

#[test]
fn an_empty_line_is_an_empty_word() {
    assert_eq!(printed(&luz(), b"\n"), "refused 9\n");
    assert_eq!(
        printed(&luz(), b"\n\n5 7 8\n\n"),
        "refused 9\nrefused 9\nall 1\n0 2 | 3 5 7\nrefused 9\n"
    );
}

#[test]
fn numbers_have_one_to_three_digits_up_to_255() {
    assert_eq!(word(b"5 7 3"), Some(vec![5, 7, 3]));
    assert_eq!(word(b"005 07 3"), Some(vec![5, 7, 3]));
    assert_eq!(word(b"0 00 000 255"), Some(vec![0, 0, 0, 255]));
    assert_eq!(printed(&luz(), b"005 07 8\n"), "all 1\n0 2 | 3 5 7\n");
}

#[test]
fn anything_else_is_unread() {
    let unread: [&[u8]; 22] = [
        b"5  7",
        b" 5 7",
        b"5 7 ",
        b" ",
        b"  ",
        b"5\t7",
        b"\t",
        b"5 7\r",
        b"\r",
        b"256",
        b"5 256 7",
        b"999",
        b"0005",
        b"1000",
        b"5 0255",
        b"5 z",
        b"z",
        b"-5",
        b"+5",
        b"5,7",
        b"5\x007",
        b"5 \xd9\xa7",
    ];
    for line in unread {
        assert_eq!(word(line), None, "{}", line.escape_ascii());
        assert_eq!(&*answer(&luz(), line).unwrap(), "unread\n");
    }
}

#[test]
fn a_line_of_255_bytes_is_read_and_one_of_256_is_not() {
    let shorter = ["5"; 128].join(" ");
    assert_eq!(shorter.len(), 255);
    assert_eq!(word(shorter.as_bytes()), Some(vec![5; 128]));
    assert_eq!(printed(&luz(), shorter.as_bytes()), "refused 9\n");
    let longer = shorter + "5";
    assert_eq!(longer.len(), 256);
    assert_eq!(word(longer.as_bytes()), None);
    let all_long = [longer.as_str(), "5 7 8", longer.as_str()].join("\n");
    assert_eq!(
        printed(&luz(), all_long.as_bytes()),
        "unread\nall 1\n0 2 | 3 5 7\nunread\n"
    );
}

#[test]
fn a_refusal_prints_its_number() {
    assert_eq!(printed(&luz(), b"1\n"), "refused 10\n");
    assert_eq!(printed(&luz(), b"0\n10\n255\n"), "refused 10\n".repeat(3));
    let letters = ["5"; 33].join(" ");
    assert_eq!(printed(&luz(), letters.as_bytes()), "refused 9\n");
}

#[test]
fn under_a_refused_image_every_line_that_is_read_is_refused() {
    let absent = read(b"");
    assert_eq!(
        printed(&absent, b"5 7 8\n\n256\n1"),
        "refused 1\nrefused 1\nunread\nrefused 1\n"
    );
    let long = read(&vec![0; 65_536 + 512]);
    assert_eq!(printed(&long, b"5"), "refused 1\n");
    let mut altered = Draft::luz().image();
    altered[7] ^= 1;
    assert_eq!(printed(&read(&altered), b"5"), "refused 2\n");
    let mut slip = Draft::luz();
    slip.lexicons[0][0].form[2] = 8;
    assert_eq!(
        printed(&read(&slip.image()), b"5 7 3\n\n256\n1"),
        "refused 14\nrefused 14\nunread\nrefused 14\n"
    );
}

#[test]
fn sixty_four_rows_are_lent() {
    let rows = |count: usize| -> String { (0..count).map(|e| format!("{e} | 0\n")).collect() };
    let answer = |count: usize| printed(&equal_entries(count), b"2\n");
    assert_eq!(answer(63), format!("all 63\n{}", rows(63)));
    assert_eq!(answer(64), format!("all 64\n{}", rows(64)));
    assert_eq!(answer(65), format!("more 64\n{}", rows(64)));
}

#[test]
fn a_word_with_too_much_to_list_is_told() {
    let entry = |continuation| DraftEntry::with_one_way(Vec::new(), continuation, 0);
    let draft = Draft {
        image_form: 1,
        letters: vec![35, 97],
        pairs: vec![(0, 2)],
        sets: Vec::new(),
        tables: Vec::new(),
        lexicons: vec![vec![entry(0), entry(0), entry(0), entry(255)]],
    };
    let known = read(&draft.image());
    let found = answers(&known, b"2\n1\n");
    assert_eq!(found[0], (&b"2"[..], Err(TooBig)));
    assert_eq!(found[1], (&b"1"[..], Ok("refused 10\n".into())));
}
