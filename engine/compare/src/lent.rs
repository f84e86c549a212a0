//! A lent range lies flush against a page that nothing may touch, and the bytes on its other side are watched.

use draw::prng::Prng;
use std::cell::RefCell;
use std::collections::BTreeMap;
use std::ffi::c_void;
use std::ptr::null_mut;
use std::slice::{from_raw_parts, from_raw_parts_mut};

extern "C" {
    fn mmap(
        address: *mut c_void,
        length: usize,
        protection: i32,
        flags: i32,
        file: i32,
        offset: i64,
    ) -> *mut c_void;
    fn mprotect(address: *mut c_void, length: usize, protection: i32) -> i32;
}

// As Linux has them.
const PAGE: usize = 4_096;
const NO_ACCESS: i32 = 0;
const READ_AND_WRITE: i32 = 3;
const PRIVATE_AND_OF_NO_FILE: i32 = 0x22;

/// What the watched bytes hold.
const WATCHED: [u8; PAGE] = {
    let mut bytes = [0; PAGE];
    let mut place = 0;
    while place < PAGE {
        bytes[place] = (place * 37 + 11) as u8 | 1;
        place += 1;
    }
    bytes
};

thread_local! {
    /// Pages that no range lies in now, by their bytes. They are never given back, since most are soon lent again.
    static IDLE: RefCell<BTreeMap<usize, Vec<*mut u8>>> = const { RefCell::new(BTreeMap::new()) };
}

/// Pages of so many bytes, with one before and one after them that nothing may touch.
fn pages(size: usize) -> *mut u8 {
    let idle = IDLE.with_borrow_mut(|idle| idle.get_mut(&size).and_then(Vec::pop));
    idle.unwrap_or_else(|| unsafe {
        let all = mmap(
            null_mut(),
            size + 2 * PAGE,
            NO_ACCESS,
            PRIVATE_AND_OF_NO_FILE,
            -1,
            0,
        );
        assert_ne!(all as isize, -1, "no memory for a lent range");
        let first = all.add(PAGE);
        assert_eq!(mprotect(first, size, READ_AND_WRITE), 0);
        first.cast()
    })
}

/// Bytes to lend, at the end of their pages or at the start. The rest of the pages, a page at most, is watched.
pub struct Lent {
    pages: *mut u8,
    size: usize,
    before: usize,
    length: usize,
}

impl Lent {
    /// These bytes, to be lent.
    pub fn new(prng: &mut Prng, bytes: &[u8]) -> Lent {
        let length = bytes.len();
        let size = (length / PAGE + 1) * PAGE;
        let rest = size - length;
        let before = if prng.percent(60) { rest } else { 0 };
        let pages = pages(size);
        // Nothing else lies in these pages until this is dropped.
        let all = unsafe { from_raw_parts_mut(pages, size) };
        all[before..before + length].copy_from_slice(bytes);
        all[..before].copy_from_slice(&WATCHED[..before]);
        all[before + length..].copy_from_slice(&WATCHED[..rest - before]);
        Lent {
            pages,
            size,
            before,
            length,
        }
    }

    fn all(&self) -> &[u8] {
        unsafe { from_raw_parts(self.pages, self.size) }
    }

    /// The lent bytes as they now are.
    pub fn bytes(&self) -> &[u8] {
        &self.all()[self.before..self.before + self.length]
    }

    /// Where the lent bytes begin.
    pub fn start(&self) -> *const u8 {
        self.bytes().as_ptr()
    }

    /// Where the lent bytes begin, to be written.
    pub fn start_mut(&mut self) -> *mut u8 {
        self.pages.wrapping_add(self.before)
    }

    /// How many bytes are lent.
    pub fn length(&self) -> usize {
        self.length
    }

    /// Whether the watched bytes are as they were.
    pub fn rest_kept(&self) -> bool {
        let (before, after) = (
            &self.all()[..self.before],
            &self.all()[self.before + self.length..],
        );
        before == &WATCHED[..before.len()] && after == &WATCHED[..after.len()]
    }
}

impl Drop for Lent {
    fn drop(&mut self) {
        IDLE.with_borrow_mut(|idle| idle.entry(self.size).or_default().push(self.pages));
    }
}
