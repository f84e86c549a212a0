//! The library as the judge of written rules. The command decides nothing of them itself.

use crate::decode::decode;
use crate::library;
use crate::text::lexicons::Entry;
use crate::text::sealed_image;
use crate::text::sets::Sets;
use crate::text::ways::Ways;
use crate::text::Form;

/// Every grammar has a first pair.
const SOME_PAIRING: [u8; 1] = [0];

pub struct Judge {
    image: Vec<u8>,
}

impl Judge {
    /// The judge by an accepted image. A call checks its image whole, and a verdict depends on nothing of it but the pairs: so
    /// the calls get an image of the same letters and pairs, without sets and tables, and with one empty entry.
    pub fn new(image: &[u8]) -> Judge {
        let mut grammar = decode(image);
        let entry = Entry { form: Vec::new(), ways: Ways::END, gloss: 0, gloss_text: String::new(), line: 0 };
        grammar.form = Form::One;
        grammar.sets = Sets::of(Vec::new());
        grammar.rules.clear();
        grammar.lexicons.truncate(1);
        grammar.lexicons[0].entries = vec![entry];
        Judge { image: sealed_image(&grammar) }
    }

    /// Whether a pairing obeys a text of rules; else the number of the refusal.
    pub fn obeys(&self, pairing: &[u8], text: &[u8]) -> Result<bool, u32> {
        library::judge_rules(&self.image, pairing, text)
    }

    /// The number of the refusal where this is no rule for the library.
    pub fn accepts(&self, rule: &str) -> Result<(), u32> {
        self.obeys(&SOME_PAIRING, rule.as_bytes()).map(drop)
    }

    /// The number of the refusal where this is no pairing for the library.
    pub fn takes(&self, pairing: &[u8]) -> Result<(), u32> {
        self.obeys(pairing, b"").map(drop)
    }
}
