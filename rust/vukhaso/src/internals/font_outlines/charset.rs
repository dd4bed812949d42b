// Written by tools/plain_rust from crates/font_outlines. Do not edit.

//! The names of the glyphs of a CFF font (The Compact Font Format Specification, "Charsets" and "String INDEX").

use crate::common::GlyphId;
use crate::font_outlines::standard_strings::standard_string;
use crate::font_tables::bytes::{u8_at, u16_at};
use crate::outline_tables::index::index_item;

/// How many standard strings there are: the strings of a font follow them.
const STANDARD_STRINGS: u32 = 391;

/// The charset that an offset below 3 names in place of a table: ISOAdobe, Expert or ExpertSubset.
///
/// # Proved
///
/// ```text
/// ensures { option_copied result ≡ predefined_charset number }
/// ```
#[inline]
pub fn predefined_charset(number: u32) -> Option<&'static [u8]> {
    match number {
        0 => Some(&ISO_ADOBE),
        1 => Some(&EXPERT),
        2 => Some(&EXPERT_SUBSET),
        _ => None,
    }
}

/// ISOAdobe, as a charset of format 1.
static ISO_ADOBE: [u8; 4] = [1, 0, 1, 227];

/// Expert, as a charset of format 1.
static EXPERT: [u8; 52] = [
    1, 0, 1, 0, 0, 229, 9, 0, 13, 2, 0, 99, 0, 0, 239, 9, 0, 27, 1, 0, 249, 17, 0, 109, 1, 1, 11,
    51, 0, 158, 0, 0, 155, 0, 0, 163, 0, 1, 63, 7, 0, 150, 0, 0, 164, 0, 0, 169, 0, 1, 71, 51,
];

/// ExpertSubset, as a charset of format 1.
static EXPERT_SUBSET: [u8; 70] = [
    1, 0, 1, 0, 0, 231, 1, 0, 235, 3, 0, 13, 2, 0, 99, 0, 0, 239, 9, 0, 27, 1, 0, 249, 2, 0, 253,
    13, 0, 109, 1, 1, 11, 3, 1, 16, 0, 1, 44, 2, 1, 49, 0, 1, 58, 1, 0, 158, 0, 0, 155, 0, 0, 163,
    0, 1, 64, 6, 0, 150, 0, 0, 164, 0, 0, 169, 0, 1, 71, 19,
];

/// The string number of a glyph's name: 0, which is `.notdef`, for the first glyph and where the
/// charset names no other.
///
/// # Proved
///
/// ```text
/// ensures { result ≡ string_number charset.now glyph.0 }
/// ```
#[inline]
pub fn string_number(charset: &[u8], glyph: GlyphId) -> u32 {
    if glyph.0 == 0 {
        0
    } else {
        charset_string(charset, glyph.0).unwrap_or(0)
    }
}

/// The string number that a charset gives a glyph behind the first.
///
/// # Requires
///
/// - `0 < glyph`
fn charset_string(charset: &[u8], glyph: u16) -> Option<u32> {
    debug_assert!(0 < glyph);
    match u8_at(charset, 0)? {
        0 => u16_at(charset, 2 * usize::from(glyph) - 1).map(u32::from),
        1 => range_string(false, charset, u32::from(glyph)),
        2 => range_string(true, charset, u32::from(glyph)),
        _ => None,
    }
}

/// The string number that the ranges of a charset give a glyph, one range after the other.
///
/// # Requires
///
/// - `glyph < 2 ^ 16`
fn range_string(is_long: bool, charset: &[u8], glyph: u32) -> Option<u32> {
    let mut before = 0;
    for row in 0..glyph {
        let through = before + u32::from(range_left(is_long, charset, row)?) + 1;
        if glyph <= through {
            let first = u16_at(charset, range_place(is_long, row))?;
            return Some(u32::from(first) + (glyph - 1 - before));
        }
        before = through;
    }
    None
}

/// The place of a range.
pub(crate) fn range_place(is_long: bool, row: u32) -> usize {
    1 + if is_long { 4 } else { 3 } * row as usize
}

/// How many glyphs are left in a range behind its first.
pub(crate) fn range_left(is_long: bool, charset: &[u8], row: u32) -> Option<u16> {
    let place = range_place(is_long, row) + 2;
    if is_long {
        u16_at(charset, place)
    } else {
        u8_at(charset, place).map(u16::from)
    }
}

/// The string of a number: a standard one, or one of the font's own.
///
/// # Proved
///
/// ```text
/// ensures { option_copied result ≡ string_of strings.now number }
/// ```
#[inline]
pub fn string_of(strings: &[u8], number: u32) -> Option<&[u8]> {
    if number < STANDARD_STRINGS {
        standard_string(number as u16).map(str::as_bytes)
    } else {
        index_item(strings, number - STANDARD_STRINGS)
    }
}
