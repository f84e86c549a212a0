//! Capitals become small letters as Rust's own characters have it, and no table is kept.

/// The last code point that is folded; none above it is, capital or not.
pub const LAST_FOLDED: u16 = 383;

/// The code point that Unicode's simple lower-case mapping makes of one, or the same where it makes none or where it is a surrogate.
pub fn lower_case(point: u16) -> u16 {
    // Rust has the full mapping, which makes i and a dot above of this one; the simple mapping makes i. No other of two bytes becomes more than one.
    if point == 0x130 {
        return 0x69;
    }
    let Some(character) = char::from_u32(point.into()) else {
        return point;
    };
    let small: Vec<char> = character.to_lowercase().collect();
    let [small] = small[..] else {
        unreachable!("{character:?} becomes several, {small:?}")
    };
    u16::try_from(u32::from(small)).expect("a small letter of two bytes")
}

/// What a code point that is in no alphabet is folded to.
pub fn folded(point: u16) -> u16 {
    if point <= LAST_FOLDED {
        lower_case(point)
    } else {
        point
    }
}
