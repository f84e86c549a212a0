//! Contexts are drawn around a run of pairs, so that they match it, and are stretched to a limit or just over it where that is wanted.

use crate::prng::Prng;
use other_engine::contexts::{MOST_BYTES, MOST_DEPTH};
use other_engine::written_rules::BOUNDARY_PAIR;

/// How tightly a text binds: what may stand beside it, or under a star, without brackets.
#[derive(Clone, Copy, PartialEq, Eq, PartialOrd, Ord)]
enum Binds {
    Either,
    Sequence,
    Starred,
}

/// A context's text.
#[derive(Clone)]
pub struct ContextText {
    pub text: Vec<u8>,
    binds: Binds,
}

/// The pairs that contexts may name.
pub struct Named {
    pub pairs: usize,
}

/// A pair number as it is written.
pub fn digits(number: u16) -> Vec<u8> {
    format!("{number:03}").into_bytes()
}

impl ContextText {
    /// A context that holds everywhere.
    pub fn empty() -> ContextText {
        atom(Vec::new())
    }

    /// The text, in brackets where it binds less tightly.
    fn at_least(self, binds: Binds) -> Vec<u8> {
        if self.binds >= binds {
            self.text
        } else {
            [b"(", &self.text[..], b")"].concat()
        }
    }

    /// Brackets one in another.
    pub fn depth(&self) -> usize {
        let (mut depth, mut most) = (0, 0);
        for byte in &self.text {
            match byte {
                b'(' => depth += 1,
                b')' => depth -= 1,
                _ => {}
            }
            most = most.max(depth);
        }
        most
    }

    fn fits(&self) -> bool {
        self.text.len() <= MOST_BYTES && self.depth() <= MOST_DEPTH
    }

    /// A context of so many bytes with the same meaning where that can be: stars of anything on its outer side.
    pub fn stretched(self, length: usize, is_left: bool) -> ContextText {
        let inner = if self.text.is_empty() {
            self.text
        } else {
            self.at_least(Binds::Sequence)
        };
        let outer = |room: usize| [b".", &vec![b'*'; room - 1][..]].concat();
        let text = match length.checked_sub(inner.len()) {
            Some(room) if room >= 2 && is_left => [outer(room), inner].concat(),
            Some(room) if room >= 2 => [inner, outer(room)].concat(),
            _ => outer(length),
        };
        ContextText {
            text,
            binds: Binds::Sequence,
        }
    }

    /// A context of the same meaning with brackets to this depth, or of one pair where it would be too long.
    pub fn deepened(self, depth: usize) -> ContextText {
        let more = depth.saturating_sub(self.depth());
        let inner = if self.text.is_empty() || self.text.len() + 2 * more > MOST_BYTES {
            vec![b'.']
        } else {
            self.text
        };
        let more = if inner == b"." { depth } else { more };
        atom([vec![b'('; more], inner, vec![b')'; more]].concat())
    }
}

fn atom(text: Vec<u8>) -> ContextText {
    ContextText {
        text,
        binds: Binds::Starred,
    }
}

fn starred(operand: ContextText) -> ContextText {
    atom([&operand.at_least(Binds::Starred)[..], b"*"].concat())
}

fn sequence(one: ContextText, other: ContextText) -> ContextText {
    let sides = [
        one.at_least(Binds::Sequence),
        other.at_least(Binds::Sequence),
    ];
    ContextText {
        text: sides.concat(),
        binds: Binds::Sequence,
    }
}

fn either(one: ContextText, other: ContextText) -> ContextText {
    ContextText {
        text: [&one.text[..], b"|", &other.text].concat(),
        binds: Binds::Either,
    }
}

fn one_pair(prng: &mut Prng, pair: u16) -> ContextText {
    let any = prng.percent(20);
    atom(if any { b".".to_vec() } else { digits(pair) })
}

impl Named {
    /// A pair that a context may name, at times the boundary, the first or the last.
    fn pair(&self, prng: &mut Prng) -> u16 {
        let any = prng.below(self.pairs) as u16;
        let last = self.pairs as u16 - 1;
        prng.one_of(&[any, any, any, BOUNDARY_PAIR, 0, last])
    }

    fn run(&self, prng: &mut Prng) -> Vec<u16> {
        (0..prng.between(1, 3)).map(|_| self.pair(prng)).collect()
    }

    /// A context that some run of pairs, this one, matches.
    pub fn around(&self, prng: &mut Prng, run: &[u16]) -> ContextText {
        for _ in 0..4 {
            let drawn = self.matching(prng, run, 5);
            if drawn.fits() {
                return drawn;
            }
        }
        // Too long each time: a full stop for each pair is one byte.
        let stops = vec![b'.'; run.len()];
        ContextText {
            text: stops,
            binds: Binds::Sequence,
        }
    }

    fn matching(&self, prng: &mut Prng, run: &[u16], fuel: usize) -> ContextText {
        let (one, other) = run.split_at(prng.below(run.len() + 1));
        let Some(fuel) = fuel.checked_sub(1) else {
            let pairs = run.iter().map(|&pair| one_pair(prng, pair));
            let joined = pairs.reduce(sequence);
            return joined.unwrap_or_else(|| starred(atom(b".".to_vec())));
        };
        if run.is_empty() {
            let unlike = self.run(prng);
            return starred(self.matching(prng, &unlike, fuel.min(2)));
        }
        match prng.weighted(&[40, 12, 14, 12, 10, 6, 6]) {
            0 if run.len() == 1 => one_pair(prng, run[0]),
            0 => {
                let (one, other) = (
                    self.matching(prng, one, fuel),
                    self.matching(prng, other, fuel),
                );
                sequence(one, other)
            }
            // What matches, and beside it what need not.
            1 => {
                let unlike = self.run(prng);
                let beside = self.matching(prng, &unlike, fuel.min(2));
                let matching = self.matching(prng, run, fuel);
                if prng.percent(50) {
                    either(matching, beside)
                } else {
                    either(beside, matching)
                }
            }
            2 => starred(self.matching(prng, run, fuel)),
            // Rounds of either part.
            3 => {
                let (one, other) = (
                    self.matching(prng, one, fuel),
                    self.matching(prng, other, fuel),
                );
                starred(either(one, other))
            }
            4 => {
                let before = self.matching(prng, &[], fuel);
                sequence(before, self.matching(prng, run, fuel))
            }
            5 => {
                let after = self.matching(prng, &[], fuel);
                sequence(self.matching(prng, run, fuel), after)
            }
            _ => {
                let inner = self.matching(prng, run, fuel);
                atom([b"(", &inner.text[..], b")"].concat())
            }
        }
    }
}
