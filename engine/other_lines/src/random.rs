//! Case after case, all that the program prints is compared with all that the engine would, and the first difference ends the run.

use crate::cases::{case, Case, Place};
use crate::fault::{first_difference, Fault};
use crate::program::{run, Left};
use crate::tally::Tally;
use draw::prng::Prng;
use std::path::Path;

/// An input over this many bytes is a long one.
const LONG: usize = 200_000;

fn hex(bytes: &[u8]) -> String {
    bytes.iter().map(|byte| format!("{byte:02x}")).collect()
}

/// Everything needed to look at a difference, the shortest account of it last.
fn told(case: &Case, expected: &str, left: &Left) -> String {
    let image = match &case.place {
        Place::File(bytes) => format!("({} bytes) {}", bytes.len(), hex(bytes)),
        Place::Nothing => "absent".to_string(),
        Place::Folder => "a folder".to_string(),
    };
    let ended = match left.signal {
        Some(signal) => format!("the program ended by signal {signal}"),
        None => "the program ended by itself".to_string(),
    };
    [
        format!("image {image}"),
        format!("input ({} bytes) {}", case.input.len(), hex(&case.input)),
        format!("handed over by {} bytes", case.piece.min(case.input.len())),
        format!("engine:\n{expected}"),
        format!("program:\n{}", String::from_utf8_lossy(&left.printed)),
        ended,
        first_difference(expected.as_bytes(), &left.printed),
    ]
    .join("\n")
}

/// Runs so many cases of a seed, and prints one line at the end.
pub fn compare(program: &Path, seed: u64, count: u64) -> Result<(), Fault> {
    let mut prng = Prng::new(seed);
    let mut tally = Tally::default();
    let mut skipped = 0;
    let mut long = 0;
    for number in 1..=count {
        let case = case(&mut prng);
        let expected = case.answers.concat();
        let left = run(program, &case.place, &case.input, case.piece)?;
        if left.signal.is_some() || left.printed != expected.as_bytes() {
            let told = told(&case, &expected, &left);
            let told = format!("seed {seed} case {number}\n{told}");
            return Err(Fault::Difference(told));
        }
        for text in &case.answers {
            tally.count(text, case.sorts);
        }
        skipped += case.skipped;
        long += usize::from(case.input.len() > LONG);
    }
    println!(
        "seed {seed} cases {count} lines {} skipped {skipped} long inputs {long}; {}",
        tally.lines(),
        tally.line()
    );
    match &tally.missing()[..] {
        [] => Ok(()),
        missing => Err(Fault::Coverage(missing.join(", "))),
    }
}
