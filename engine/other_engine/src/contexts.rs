//! A context is read from the left with a stack of its open brackets, and matched by the automaton whose states are its atoms.

/// The bytes a context has at most.
pub const MOST_BYTES: usize = 64;
/// The brackets that may be open at once.
pub const MOST_DEPTH: usize = 8;

/// What matches one pair.
#[derive(Clone, Copy)]
enum Atom {
    Pair(u16),
    Any,
}

/// What has been read of a context, or a part of it: whether the empty run matches, and the atoms that match the first and the last pair of a run, a bit
/// for each. A context of 64 bytes has 64 atoms at most.
#[derive(Clone, Copy)]
struct Part {
    empty: bool,
    first: u64,
    last: u64,
}

/// A context as an automaton.
pub struct Context {
    atoms: Vec<Atom>,
    /// For each atom those that may match the next pair.
    next: Vec<u64>,
    whole: Part,
}

/// What stands between an open bracket, or the start, and the place that has been read to.
#[derive(Default)]
struct Open {
    /// The sides of a bar that are complete.
    sides: Option<Part>,
    /// The present side without its last part.
    sequence: Option<Part>,
    /// The last part, to which a star would belong.
    last: Option<Part>,
}

/// The bits of a number, as places.
fn places(mut bits: u64) -> impl Iterator<Item = usize> {
    std::iter::from_fn(move || {
        let place = bits.trailing_zeros();
        bits &= bits.checked_sub(1)?;
        Some(place as usize)
    })
}

/// Three digits as their number.
pub fn three_digits(text: &[u8]) -> Option<u16> {
    let digits = text.len() == 3 && text.iter().all(u8::is_ascii_digit);
    let number = |value, &digit| 10 * value + u16::from(digit - b'0');
    digits.then(|| text.iter().fold(0, number))
}

impl Context {
    /// The context of a text, if it is one.
    pub fn read(text: &[u8]) -> Option<Context> {
        let mut context = Context {
            atoms: Vec::new(),
            next: Vec::new(),
            // An empty context: the empty run matches, and that is found everywhere.
            whole: Part {
                empty: true,
                first: 0,
                last: 0,
            },
        };
        if text.is_empty() {
            return Some(context);
        }
        if text.len() > MOST_BYTES {
            return None;
        }
        let mut open = vec![Open::default()];
        let mut at = 0;
        while at < text.len() {
            let depth = open.len() - 1;
            let innermost = open.last_mut()?;
            match text[at] {
                b'(' if depth == MOST_DEPTH => return None,
                b'(' => open.push(Open::default()),
                b')' => {
                    let part = context.side_ended(innermost)?;
                    open.pop();
                    context.part_read(open.last_mut()?, part);
                }
                b'|' => innermost.sides = Some(context.side_ended(innermost)?),
                b'*' => innermost.last = Some(context.repeated(innermost.last?)),
                b'.' => context.atom_read(innermost, Atom::Any),
                _ => {
                    let number = three_digits(text.get(at..at + 3)?)?;
                    context.atom_read(innermost, Atom::Pair(number));
                    at += 2;
                }
            }
            at += 1;
        }
        let mut outermost = open.pop()?;
        context.whole = context.side_ended(&mut outermost)?;
        open.is_empty().then_some(context)
    }

    fn atom_read(&mut self, open: &mut Open, atom: Atom) {
        let bit = 1 << self.atoms.len();
        self.atoms.push(atom);
        self.next.push(0);
        let part = Part {
            empty: false,
            first: bit,
            last: bit,
        };
        self.part_read(open, part);
    }

    fn part_read(&mut self, open: &mut Open, part: Part) {
        open.sequence = self.joined(open.sequence, open.last);
        open.last = Some(part);
    }

    /// The sides of a bar up to here, the one that ends here among them. There is none where nothing stands in it.
    fn side_ended(&mut self, open: &mut Open) -> Option<Part> {
        let side = self.joined(open.sequence.take(), Some(open.last.take()?))?;
        Some(match open.sides {
            None => side,
            Some(sides) => Part {
                empty: sides.empty || side.empty,
                first: sides.first | side.first,
                last: sides.last | side.last,
            },
        })
    }

    fn follow(&mut self, last: u64, first: u64) {
        for place in places(last) {
            self.next[place] |= first;
        }
    }

    fn joined(&mut self, one: Option<Part>, other: Option<Part>) -> Option<Part> {
        let (Some(one), Some(other)) = (one, other) else {
            return one.or(other);
        };
        self.follow(one.last, other.first);
        Some(Part {
            empty: one.empty && other.empty,
            first: one.first | if one.empty { other.first } else { 0 },
            last: other.last | if other.empty { one.last } else { 0 },
        })
    }

    fn repeated(&mut self, part: Part) -> Part {
        self.follow(part.last, part.first);
        Part {
            empty: true,
            ..part
        }
    }

    /// The pair numbers that stand in the context.
    pub fn numbers(&self) -> impl Iterator<Item = u16> + '_ {
        self.atoms.iter().filter_map(|&atom| match atom {
            Atom::Pair(number) => Some(number),
            Atom::Any => None,
        })
    }

    /// Of the runs that begin with the first of these pairs, whether that of no pair matches, of one pair, of two, and so on.
    pub fn matched(&self, pairs: &[u16]) -> Vec<bool> {
        let mut matched = vec![self.matches_empty()];
        let mut may_match = self.first();
        for &pair in pairs {
            let (matches, next) = self.after(may_match, pair);
            matched.push(matches);
            may_match = next;
        }
        matched
    }

    /// Whether the run of no pair matches.
    pub fn matches_empty(&self) -> bool {
        self.whole.empty
    }

    /// The atoms that may match the first pair of a run.
    pub fn first(&self) -> u64 {
        self.whole.first
    }

    /// After a pair that one of these atoms is to match: whether the run up to it matches, and the atoms that may match the next.
    pub fn after(&self, may_match: u64, pair: u16) -> (bool, u64) {
        let matches = |&place: &usize| match self.atoms[place] {
            Atom::Pair(number) => number == pair,
            Atom::Any => true,
        };
        let mut ends = false;
        let mut next = 0;
        for place in places(may_match).filter(matches) {
            ends |= self.whole.last >> place & 1 == 1;
            next |= self.next[place];
        }
        (ends, next)
    }
}
