//! What is wrong with a text, and in which line.

/// A fault of a text. Line 0 stands for the file as a whole.
#[derive(Clone, Debug, PartialEq, Eq)]
pub struct Fault {
    pub line: usize,
    pub what: String,
}

impl Fault {
    pub fn new(line: usize, what: impl Into<String>) -> Fault {
        Fault { line, what: what.into() }
    }
}

/// The faults found so far.
#[derive(Clone, Debug, Default, PartialEq, Eq)]
pub struct Faults(Vec<Fault>);

impl Faults {
    pub fn add(&mut self, line: usize, what: impl Into<String>) {
        self.0.push(Fault::new(line, what));
    }

    pub fn extend(&mut self, others: Faults) {
        self.0.extend(others.0);
    }

    /// The value of a part that was read; the fault of one that was not is kept.
    pub fn keep<T>(&mut self, part: Result<T, Fault>) -> Option<T> {
        part.map_err(|fault| self.0.push(fault)).ok()
    }

    /// `value` where nothing was at fault.
    pub fn or<T>(self, value: T) -> Result<T, Faults> {
        if self.0.is_empty() {
            Ok(value)
        } else {
            Err(self)
        }
    }

    /// The faults in the order of their lines.
    pub fn by_line(mut self) -> Vec<Fault> {
        self.0.sort_by_key(|fault| fault.line);
        self.0
    }
}

impl From<Vec<Fault>> for Faults {
    fn from(faults: Vec<Fault>) -> Faults {
        Faults(faults)
    }
}

impl From<Fault> for Faults {
    fn from(fault: Fault) -> Faults {
        Faults(vec![fault])
    }
}
