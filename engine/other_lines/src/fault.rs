//! A run ends with nothing wrong or with one fault, which fixes what is told and the exit code.

use std::io;
use std::process::ExitCode;

/// Why a run ends before its good end.
pub enum Fault {
    /// The program prints something else than the engine, or crashes.
    Difference(String),
    /// The arguments are wrong, or a file or the program can't be used.
    Unusable(String),
    /// Some reply, or the like, was never met.
    Coverage(String),
}

impl From<io::Error> for Fault {
    fn from(error: io::Error) -> Fault {
        Fault::Unusable(error.to_string())
    }
}

impl Fault {
    /// Tells the fault and gives its exit code.
    pub fn end(&self) -> ExitCode {
        match self {
            Fault::Difference(told) => {
                println!("{told}");
                ExitCode::from(1)
            }
            Fault::Unusable(told) => {
                eprintln!("{told}");
                ExitCode::from(2)
            }
            Fault::Coverage(missing) => {
                eprintln!("poor coverage, never met: {missing}");
                ExitCode::from(3)
            }
        }
    }
}

fn quoted(line: Option<&[u8]>) -> String {
    match line {
        Some(line) => format!("\"{}\"", line.escape_ascii()),
        None => "nothing".to_string(),
    }
}

/// The first printed line in which the program differs from the engine.
pub fn first_difference(engine: &[u8], program: &[u8]) -> String {
    let mut ones = engine.split_inclusive(|&byte| byte == b'\n');
    let mut others = program.split_inclusive(|&byte| byte == b'\n');
    let mut number = 0;
    loop {
        number += 1;
        match (ones.next(), others.next()) {
            (None, None) => return "no printed line differs".to_string(),
            (one, other) if one == other => {}
            (one, other) => {
                let (one, other) = (quoted(one), quoted(other));
                return format!("printed line {number}: engine {one}, program {other}");
            }
        }
    }
}

#[cfg(test)]
mod tests {
    use super::first_difference;

    #[test]
    fn the_first_line_that_differs_is_told() {
        let told = |one: &str, other: &str| first_difference(one.as_bytes(), other.as_bytes());
        assert_eq!(told("a\n", "a\n"), "no printed line differs");
        assert_eq!(
            told("a\nb\n", "a\nc\n"),
            "printed line 2: engine \"b\\n\", program \"c\\n\""
        );
        assert_eq!(
            told("a\n", "a"),
            "printed line 1: engine \"a\\n\", program \"a\""
        );
        assert_eq!(
            told("a\n", "a\nb"),
            "printed line 2: engine nothing, program \"b\""
        );
    }
}
