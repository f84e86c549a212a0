//! A list of readings becomes rows of a lent buffer and one reply number.

use crate::reading::Reading;

/// The length of a row.
pub const ROW: usize = 116;

/// The row of a reading.
pub fn row(reading: &Reading) -> [u8; ROW] {
    let mut numbers = [65_535u16; 58];
    numbers[0] = reading.path.len() as u16;
    numbers[1..1 + reading.path.len()].copy_from_slice(&reading.path);
    numbers[17] = reading.pairing.len() as u16;
    for (place, &pair) in numbers[18..].iter_mut().zip(&reading.pairing) {
        *place = u16::from(pair);
    }
    let mut bytes = [0; ROW];
    for (two, number) in bytes.chunks_exact_mut(2).zip(numbers) {
        two.copy_from_slice(&number.to_le_bytes());
    }
    bytes
}

/// Writes as many readings as there are rows, and replies none, all or more.
pub fn list(readings: &[Reading], rows: &mut [u8]) -> u64 {
    let room = rows.len() / ROW;
    for (place, reading) in rows.chunks_exact_mut(ROW).zip(readings) {
        place.copy_from_slice(&row(reading));
    }
    match readings.len() {
        0 => 0,
        n if n <= room => 4 * n as u64 + 1,
        _ => 4 * room as u64 + 2,
    }
}

/// The reply number of a refusal.
pub fn refused(k: u8) -> u64 {
    4 * u64::from(k) + 3
}
