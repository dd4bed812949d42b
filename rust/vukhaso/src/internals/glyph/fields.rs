// Written by tools/plain_rust from crates/rb_glyph. Do not edit.

//! Bit fields of a word of 32 bits.

/// The word whose ones are its lowest `bits` bits.
///
/// # Requires
///
/// - `bits < 32`
fn low_ones(bits: u32) -> u32 {
    debug_assert!(bits < 32);
    (1 << bits) - 1
}

/// The field of `bits` bits that begins at bit `from`.
///
/// # Requires
///
/// - `start: from < 32`
/// - `size: bits < 32`
pub(crate) fn read_field(word: u32, from: u32, bits: u32) -> u32 {
    debug_assert!(from < 32);
    debug_assert!(bits < 32);
    word >> from & low_ones(bits)
}

/// Puts a value into the field of `bits` bits that begins at bit `from`.
///
/// # Requires
///
/// - `start: from < 32`
/// - `size: bits < 32`
/// - `within: from + bits ≤ 32`
/// - `fits: value < 2 ^ bits`
pub(crate) fn write_field(word: &mut u32, from: u32, bits: u32, value: u32) {
    debug_assert!(from < 32);
    debug_assert!(bits < 32);
    debug_assert!(from + bits <= 32);
    let mask = low_ones(bits) << from;
    *word = *word & !mask | value << from;
}
