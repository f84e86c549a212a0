//! The linked library is called with lent ranges and answers with one number a call.

use crate::lent::Lent;

/// The type of an entry number in the C interface.
pub type EntryNumber = usize;

extern "C" {
    fn headwords_analyse(
        image: *const u8,
        image_length: usize,
        word: *const u8,
        word_length: usize,
        rows: *mut u8,
        rows_length: usize,
    ) -> u64;
    fn headwords_analyse_words(
        image: *const u8,
        image_length: usize,
        words: *const u8,
        words_length: usize,
        replies: *mut u8,
        replies_length: usize,
        rows: *mut u8,
        rows_length: usize,
    ) -> u64;
    fn headwords_generate(
        image: *const u8,
        image_length: usize,
        path: *const u8,
        path_length: usize,
        rows: *mut u8,
        rows_length: usize,
    ) -> u64;
    fn headwords_check(image: *const u8, image_length: usize) -> u64;
    fn headwords_seal(image: *mut u8, image_length: usize) -> u64;
    fn headwords_convert(
        image: *const u8,
        image_length: usize,
        target: *mut u8,
        target_length: usize,
    ) -> u64;
    fn headwords_judge(
        image: *const u8,
        image_length: usize,
        path: *const u8,
        path_length: usize,
        pairing: *const u8,
        pairing_length: usize,
    ) -> u64;
    fn headwords_judge_rules(
        image: *const u8,
        image_length: usize,
        pairing: *const u8,
        pairing_length: usize,
        text: *const u8,
        text_length: usize,
    ) -> u64;
    fn headwords_form(
        image: *const u8,
        image_length: usize,
        entry: EntryNumber,
        letters: *mut u8,
        letters_length: usize,
    ) -> u64;
    fn headwords_spell(
        image: *const u8,
        image_length: usize,
        points: *const u8,
        points_length: usize,
        letters: *mut u8,
        letters_length: usize,
    ) -> u64;
}

// Each range is owned by a Lent of its own, so none overlaps another and all outlive the call.

pub fn analyse(image: &Lent, word: &Lent, rows: &mut Lent) -> u64 {
    let room = rows.length();
    unsafe {
        headwords_analyse(
            image.start(),
            image.length(),
            word.start(),
            word.length(),
            rows.start_mut(),
            room,
        )
    }
}

pub fn analyse_words(image: &Lent, words: &Lent, replies: &mut Lent, rows: &mut Lent) -> u64 {
    let (places, room) = (replies.length(), rows.length());
    unsafe {
        headwords_analyse_words(
            image.start(),
            image.length(),
            words.start(),
            words.length(),
            replies.start_mut(),
            places,
            rows.start_mut(),
            room,
        )
    }
}

pub fn generate(image: &Lent, path: &Lent, rows: &mut Lent) -> u64 {
    let room = rows.length();
    unsafe {
        headwords_generate(
            image.start(),
            image.length(),
            path.start(),
            path.length(),
            rows.start_mut(),
            room,
        )
    }
}

pub fn check(image: &Lent) -> u64 {
    unsafe { headwords_check(image.start(), image.length()) }
}

pub fn seal(image: &mut Lent) -> u64 {
    let length = image.length();
    unsafe { headwords_seal(image.start_mut(), length) }
}

pub fn convert(image: &Lent, target: &mut Lent) -> u64 {
    let room = target.length();
    unsafe { headwords_convert(image.start(), image.length(), target.start_mut(), room) }
}

pub fn judge(image: &Lent, path: &Lent, pairing: &Lent) -> u64 {
    unsafe {
        headwords_judge(
            image.start(),
            image.length(),
            path.start(),
            path.length(),
            pairing.start(),
            pairing.length(),
        )
    }
}

pub fn judge_rules(image: &Lent, pairing: &Lent, text: &Lent) -> u64 {
    unsafe {
        headwords_judge_rules(
            image.start(),
            image.length(),
            pairing.start(),
            pairing.length(),
            text.start(),
            text.length(),
        )
    }
}

pub fn form(image: &Lent, entry: EntryNumber, letters: &mut Lent) -> u64 {
    let room = letters.length();
    unsafe {
        headwords_form(
            image.start(),
            image.length(),
            entry,
            letters.start_mut(),
            room,
        )
    }
}

pub fn spell(image: &Lent, points: &Lent, letters: &mut Lent) -> u64 {
    let room = letters.length();
    unsafe {
        headwords_spell(
            image.start(),
            image.length(),
            points.start(),
            points.length(),
            letters.start_mut(),
            room,
        )
    }
}
