// Written by tools/plain_rust from crates/font_cmap. Do not edit.

//! Subtables that have a glyph for each code from a first one on (OpenType specification, `cmap`, "Format 0", "Format 6" and
//! "Format 10").

use crate::font_tables::bytes::{u8_at, u16_at, u32_at};

/// The glyph of a number: 0 is no glyph, and none is above 65,535.
pub(crate) fn some_glyph(number: u64) -> Option<u16> {
    if number == 0 || number > 65535 {
        None
    } else {
        Some(number as u16)
    }
}

/// The glyph of a code by format 0, which has a byte for each of the first 256 codes.
pub(crate) fn byte_glyph(table: &[u8], code: u32) -> Option<u16> {
    if code < 256 {
        let glyph = u8_at(table, 6 + code as usize)?;
        some_glyph(u64::from(glyph))
    } else {
        None
    }
}

/// The glyph of a code among `count` glyphs from a place on, of which `first` has the first.
///
/// # Requires
///
/// - `place < 65536`
fn listed_glyph(table: &[u8], place: usize, first: u32, count: u32, code: u32) -> Option<u16> {
    debug_assert!(place < 65536);
    if code < first || code - first >= count {
        return None;
    }
    let glyph = u16_at(table, place + 2 * (code - first) as usize)?;
    some_glyph(u64::from(glyph))
}

/// The glyph of a code by format 6.
pub(crate) fn trimmed_table_glyph(table: &[u8], code: u32) -> Option<u16> {
    let first = u16_at(table, 6)?;
    let count = u16_at(table, 8)?;
    listed_glyph(table, 10, u32::from(first), u32::from(count), code)
}

/// The glyph of a code by format 10.
pub(crate) fn trimmed_array_glyph(table: &[u8], code: u32) -> Option<u16> {
    let first = u32_at(table, 12)?;
    let count = u32_at(table, 16)?;
    listed_glyph(table, 20, first, count, code)
}
