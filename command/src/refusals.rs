//! What the numbers of refusals mean, in words.

/// Of which test a refusal with this number tells.
pub fn meaning(number: u32) -> &'static str {
    match number {
        1 => "image length 0, over 65,536, or no multiple of 512",
        2 => "a check or block number is wrong",
        3 => "form (1 or 2), counts, block total, kinds, record counts or unused block bytes are not as laid down; over 31 sets; the block of sets missing, or there though no set is counted",
        4 => "a code point is 0, 55296-57343, or repeated",
        5 => "a pair breaks its rule or is repeated",
        6 => "a rule table's counts, column sides, marks or next states are out of range, a side names a missing set, or a byte after its last row is not 0; or a set has a letter above L",
        7 => "for a listed or the boundary pair a rule has no matching column, or two narrowest",
        8 => "lexicon counts do not add up to the entries, or an entry breaks its layout; in form 2, an end mark over 1, a bit for a missing lexicon, or neither mark nor bit",
        14 => "an entry can never be spelled: a letter of its form is the lexical side of no pair",
        15 => "no conversion to form 1: an entry has more than one way on, an ending counted as a way",
        16 => "the converted image would have more than 128 blocks",
        17 => "a target of another length than the converted image",
        9 => "word length 0 or over 32",
        10 => "a word letter outside 2-L",
        11 => "path of 0 or over 16 entries, or an odd count of bytes",
        12 => "no such entry, or the path is not linked through the lexicon, or may not stop at its last entry",
        13 => "pairing length 0 or over 40, or no such pair",
        19 => "no text of written rules: a line is not operator, pair, contexts, there are over 32 rules, or a context is over 64 bytes or 8 brackets deep",
        20 => "a written rule names a pair that the grammar has not, or the boundary as its own pair",
        23 => "a code point with no letter, or with letter 1",
        24 => "an output shorter than the word",
        _ => "a refusal that this command does not know",
    }
}

/// A refusal as it is told: its number, and what that means.
pub fn told(number: u32) -> String {
    format!("refused {number}: {}", meaning(number))
}
