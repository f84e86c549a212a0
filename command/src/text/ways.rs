//! The ways on from an entry: lexicons that the next entry may come from, and the end of the word.

use crate::text::alphabet::{Alphabet, BOUNDARY};
use crate::text::lexicons::Lexicon;

#[derive(Clone, Copy, Debug, Default, PartialEq, Eq, Hash)]
pub struct Ways {
    /// Bit x stands for lexicon x.
    pub bits: u64,
    /// Whether the word may end here.
    pub end: bool,
}

impl Ways {
    pub const END: Ways = Ways { bits: 0, end: true };

    pub fn to(lexicon: u8) -> Ways {
        Ways { bits: 1 << lexicon, end: false }
    }

    /// These ways and those.
    pub fn and(self, other: Ways) -> Ways {
        Ways { bits: self.bits | other.bits, end: self.end || other.end }
    }

    /// The ways that are both of these and of those.
    pub fn shared(self, other: Ways) -> Ways {
        Ways { bits: self.bits & other.bits, end: self.end && other.end }
    }

    /// Whether some way is.
    pub fn meets(self, other: Ways) -> bool {
        self.shared(other).count() > 0
    }

    pub fn goes_to(self, lexicon: usize) -> bool {
        self.bits >> lexicon & 1 == 1
    }

    /// The lexicons from the lowest on, which is the order of the entries that may follow.
    pub fn lexicons(self) -> impl DoubleEndedIterator<Item = usize> {
        (0..64).filter(move |&lexicon| self.goes_to(lexicon))
    }

    /// How many there are, the end being one.
    pub fn count(self) -> usize {
        self.bits.count_ones() as usize + usize::from(self.end)
    }

    pub fn is_one(self) -> bool {
        self.count() == 1
    }

    /// As the text writes them: the end, which comes before any entry, and then the lexicons, divided by blanks.
    pub fn shown(self, lexicons: &[Lexicon], alphabet: &Alphabet) -> String {
        let end = self.end.then(|| alphabet.character(BOUNDARY).to_string());
        let names = self.lexicons().map(|lexicon| lexicons[lexicon].name.clone());
        end.into_iter().chain(names).collect::<Vec<_>>().join(" ")
    }
}
