//! A byte outside the lent ranges that is touched ends the run, and the call under way is told.

use crate::tally::Kind;
use std::process::exit;
use std::sync::Mutex;

extern "C" {
    fn signal(number: i32, handler: extern "C" fn(i32)) -> usize;
}

// As Linux has it.
const SEGMENTATION_FAULT: i32 = 11;

/// The call under way: the seed, the part of the run, its number there and its kind.
static UNDER_WAY: Mutex<Option<(u64, &str, u64, Kind)>> = Mutex::new(None);

/// The signal comes from within a library's call, which holds no lock of this program's.
extern "C" fn touched(_: i32) {
    if let Some((seed, part, call, kind)) = UNDER_WAY.lock().ok().and_then(|call| *call) {
        let name = kind.name();
        println!("seed {seed} {part} {call} {name}: a byte that is not lent is touched");
    }
    exit(1);
}

/// From now on a byte that can't be touched ends the run.
pub fn watch() {
    unsafe { signal(SEGMENTATION_FAULT, touched) };
}

/// Notes the call that is about to be made.
pub fn under_way(seed: u64, part: &'static str, call: u64, kind: Kind) {
    if let Ok(mut last) = UNDER_WAY.lock() {
        *last = Some((seed, part, call, kind));
    }
}
