//! A reading is a path and a pairing that meet every clause of the definition, and its step list places it among the others.

use crate::grammar::{Grammar, NULL};

/// A path and a pairing.
#[derive(Clone, Debug, PartialEq, Eq)]
pub struct Reading {
    pub path: Vec<u16>,
    pub pairing: Vec<u8>,
}

/// The ending of a path in a step list of form 2, which counts below every entry number.
pub const ENDING: i32 = -1;

/// Why no list of readings is handed back.
#[derive(Clone, Copy, Debug, PartialEq, Eq)]
pub enum Stop {
    /// The call is refused by this test.
    Refused(u8),
    /// The enumeration would pass its budget.
    TooBig,
}

impl Grammar {
    /// The surface sides of a pairing without nulls: the word it spells.
    pub fn spelled(&self, pairing: &[u8]) -> Vec<u8> {
        pairing
            .iter()
            .map(|&p| self.pairs[usize::from(p)].1)
            .filter(|&letter| letter != NULL)
            .collect()
    }

    /// Whether a pairing, with a complete path of these joined forms, is a reading of this word.
    pub fn reads(&self, joined: &[u8], pairing: &[u8], word: &[u8]) -> bool {
        let sides: Vec<(u8, u8)> = pairing
            .iter()
            .map(|&p| self.pairs[usize::from(p)])
            .collect();
        let lexical = sides.iter().map(|s| s.0).filter(|&letter| letter != NULL);
        let surface = sides.iter().map(|s| s.1).filter(|&letter| letter != NULL);
        (1..=32).contains(&word.len())
            && (1..=40).contains(&pairing.len())
            && lexical.eq(joined.iter().copied())
            && surface.eq(word.iter().copied())
            && sides.iter().filter(|s| s.0 == NULL).count() <= 8
            && sides.iter().filter(|s| s.1 == NULL).count() <= 8
            && self.passes(pairing)
    }

    /// The step list of a reading, which has the ending where the image's form is 2.
    pub fn steps(&self, reading: &Reading) -> Vec<i32> {
        self.steps_by(reading, self.image_form == 2)
    }

    /// The step list of a reading, with its ending or without.
    pub fn steps_by(&self, reading: &Reading, has_ending: bool) -> Vec<i32> {
        let length = |at: usize| self.entries[usize::from(reading.path[at])].form.len();
        // Entry n + 1 stands straight after the pair of the last letter of entries 0 to n.
        let mut steps = Vec::with_capacity(reading.path.len() + 1 + reading.pairing.len());
        let mut open = 0;
        let mut letters_due = 0;
        let mut letters_paired = 0;
        let mut due_to_end = has_ending;
        let mut pairs = reading.pairing.iter();
        loop {
            while open < reading.path.len() && letters_paired == letters_due {
                steps.push(i32::from(reading.path[open]));
                letters_due += length(open);
                open += 1;
            }
            // The ending stands where one entry more would open.
            if due_to_end && letters_paired == letters_due {
                steps.push(ENDING);
                due_to_end = false;
            }
            let Some(&pair) = pairs.next() else { break };
            steps.push(i32::from(pair));
            if self.pairs[usize::from(pair)].0 != NULL {
                letters_paired += 1;
            }
        }
        steps
    }

    /// Puts readings in step order.
    pub fn in_step_order(&self, mut readings: Vec<Reading>) -> Vec<Reading> {
        readings.sort_by_cached_key(|reading| self.steps(reading));
        readings
    }
}
