//! The proved library: its C functions on slices, with replies as it gives them.

/// Bytes of a row.
pub const ROW: usize = 116;
/// Bytes of a word's record: its length, and 32 places for letters.
pub const RECORD: usize = 33;
/// Bytes of a word's place for its reply.
pub const PLACE: usize = 8;

/// What a call replies.
#[derive(Clone, Copy, Debug, PartialEq, Eq)]
pub enum Reply {
    None,
    All(usize),
    More(usize),
    Refused(u32),
}

impl Reply {
    pub fn of(number: u64) -> Reply {
        let count = number / 4;
        match number % 4 {
            0 => Reply::None,
            1 => Reply::All(count as usize),
            2 => Reply::More(count as usize),
            _ => Reply::Refused(count as u32),
        }
    }

    /// The number of a refusal.
    pub fn refusal(self) -> Option<u32> {
        match self {
            Reply::Refused(number) => Some(number),
            _ => None,
        }
    }

    /// The rows that were written.
    pub fn rows(self) -> usize {
        match self {
            Reply::All(count) | Reply::More(count) => count,
            Reply::None | Reply::Refused(_) => 0,
        }
    }
}

/// Number `at` of a row: 0 the path's length, 1 to 16 its entries, 17 the pairing's length, 18 to 57 its pairs.
fn row_number(row: &[u8], at: usize) -> usize {
    usize::from(u16::from_le_bytes([row[2 * at], row[2 * at + 1]]))
}

/// The entries of a row's path.
pub fn path(row: &[u8]) -> impl Iterator<Item = usize> + '_ {
    (1..=row_number(row, 0)).map(|at| row_number(row, at))
}

/// The pairs of a row's pairing.
pub fn pairing(row: &[u8]) -> impl Iterator<Item = usize> + '_ {
    (18..18 + row_number(row, 17)).map(|at| row_number(row, at))
}

extern "C" {
    fn headwords_analyse_words(
        image: *const u8,
        image_length: usize,
        words: *const u8,
        words_length: usize,
        replies: *mut u8,
        replies_length: usize,
        rows: *mut u8,
        rows_length: usize,
    ) -> u64;
    fn headwords_analyse(
        image: *const u8,
        image_length: usize,
        word: *const u8,
        word_length: usize,
        rows: *mut u8,
        rows_length: usize,
    ) -> u64;
    fn headwords_generate(
        image: *const u8,
        image_length: usize,
        path: *const u8,
        path_length: usize,
        rows: *mut u8,
        rows_length: usize,
    ) -> u64;
    fn headwords_check(image: *const u8, image_length: usize) -> u64;
    fn headwords_seal(image: *mut u8, image_length: usize) -> u64;
    fn headwords_convert(image: *const u8, image_length: usize, target: *mut u8, target_length: usize) -> u64;
    fn headwords_spell(
        image: *const u8,
        image_length: usize,
        points: *const u8,
        points_length: usize,
        letters: *mut u8,
        letters_length: usize,
    ) -> u64;
    fn headwords_judge_rules(
        image: *const u8,
        image_length: usize,
        pairing: *const u8,
        pairing_length: usize,
        text: *const u8,
        text_length: usize,
    ) -> u64;
}

// Slices are what the header asks of a caller: no pointer is NULL, each range has its length, what is written is lent to
// this call alone and overlaps nothing. The stack of a thread that calls has at least 512 kilobytes free: Rust gives two
// megabytes, and the main thread more.

/// `All(0)` where the image is accepted.
pub fn check(image: &[u8]) -> Reply {
    Reply::of(unsafe { headwords_check(image.as_ptr(), image.len()) })
}

pub fn seal(image: &mut [u8]) -> Reply {
    Reply::of(unsafe { headwords_seal(image.as_mut_ptr(), image.len()) })
}

/// The image in the other form, to a target of just its length. `All(0)` where it is converted.
pub fn convert(image: &[u8], target: &mut [u8]) -> Reply {
    Reply::of(unsafe { headwords_convert(image.as_ptr(), image.len(), target.as_mut_ptr(), target.len()) })
}

/// All readings of a word, a byte a letter.
pub fn analyse(image: &[u8], word: &[u8], rows: &mut [u8]) -> Reply {
    Reply::of(unsafe {
        headwords_analyse(image.as_ptr(), image.len(), word.as_ptr(), word.len(), rows.as_mut_ptr(), rows.len())
    })
}

/// The readings of many words, a record each: the reply's number of word i, low byte first, to place i of `replies`, and its
/// rows to its equal share of the rows. `All(n)` where n words are answered; a refused image refuses the whole call.
pub fn analyse_words(image: &[u8], words: &[u8], replies: &mut [u8], rows: &mut [u8]) -> Reply {
    Reply::of(unsafe {
        headwords_analyse_words(
            image.as_ptr(),
            image.len(),
            words.as_ptr(),
            words.len(),
            replies.as_mut_ptr(),
            replies.len(),
            rows.as_mut_ptr(),
            rows.len(),
        )
    })
}

/// All readings with a path, two bytes an entry.
pub fn generate(image: &[u8], path: &[u8], rows: &mut [u8]) -> Reply {
    Reply::of(unsafe {
        headwords_generate(image.as_ptr(), image.len(), path.as_ptr(), path.len(), rows.as_mut_ptr(), rows.len())
    })
}

/// The letters of a word that is given as code points, two bytes each.
pub fn spell(image: &[u8], points: &[u8], letters: &mut [u8]) -> Reply {
    Reply::of(unsafe {
        headwords_spell(image.as_ptr(), image.len(), points.as_ptr(), points.len(), letters.as_mut_ptr(), letters.len())
    })
}

/// Whether a pairing, a byte a pair, obeys written rules, a line each; else the number of the refusal.
pub fn judge_rules(image: &[u8], pairing: &[u8], text: &[u8]) -> Result<bool, u32> {
    let reply = Reply::of(unsafe {
        headwords_judge_rules(image.as_ptr(), image.len(), pairing.as_ptr(), pairing.len(), text.as_ptr(), text.len())
    });
    reply.refusal().map_or(Ok(reply != Reply::None), Err)
}
