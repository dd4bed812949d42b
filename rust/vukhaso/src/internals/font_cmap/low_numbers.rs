// Written by tools/plain_rust from crates/font_cmap. Do not edit.

//! Numbers at low places, for which one comparison shows that they lie in the table.

/// The number of 16 bits at a place; `None` unless both of its bytes lie in the table.
///
/// # Requires
///
/// - `at < 2 ^ 48`
#[inline(always)]
pub(crate) fn low_u16_at(table: &[u8], at: usize) -> Option<u16> {
    match table.get(at..at + 2)? {
        [high, low, ..] => Some(u16::from_be_bytes([*high, *low])),
        _ => None,
    }
}

/// The number of 32 bits at a place; `None` unless its four bytes lie in the table.
///
/// # Requires
///
/// - `at < 2 ^ 48`
#[inline(always)]
pub(crate) fn low_u32_at(table: &[u8], at: usize) -> Option<u32> {
    match table.get(at..at + 4)? {
        [first, second, third, fourth, ..] => {
            Some(u32::from_be_bytes([*first, *second, *third, *fourth]))
        }
        _ => None,
    }
}
