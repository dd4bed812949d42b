// Written by tools/plain_rust from crates/font_outlines. Do not edit.

//! The standard encoding, by which a charstring names the glyphs of an accented character (The Compact Font Format
//! Specification, Appendix B).

use crate::common::GlyphId;
use crate::font_outlines::charset::{range_left, range_place};
use crate::font_tables::bytes::{u8_at, u16_at};

/// The string number of a code in the standard encoding; `None` where the code has no character.
pub(crate) fn encoded_string(code: u8) -> Option<u16> {
    match code {
        32..=126 => Some(u16::from(code) - 31),
        161..=175 => Some(u16::from(code) - 65),
        177..=180 => Some(u16::from(code) - 66),
        182..=189 => Some(u16::from(code) - 67),
        191 => Some(123),
        193..=200 => Some(u16::from(code) - 69),
        202..=203 => Some(u16::from(code) - 70),
        205..=208 => Some(u16::from(code) - 71),
        225 => Some(138),
        227 => Some(139),
        232..=235 => Some(u16::from(code) - 92),
        241 => Some(144),
        245 => Some(145),
        248..=251 => Some(u16::from(code) - 102),
        _ => None,
    }
}

/// The first of so many glyphs, behind the first, whose name has a string number by a charset; `None`
/// where there is none.
pub(crate) fn glyph_of_string(charset: &[u8], string: u16, glyph_count: u16) -> Option<GlyphId> {
    match u8_at(charset, 0)? {
        0 => listed_glyph(charset, string, glyph_count),
        1 => ranged_glyph(false, charset, string, glyph_count),
        2 => ranged_glyph(true, charset, string, glyph_count),
        _ => None,
    }
}

/// The same, for a charset that lists string numbers.
fn listed_glyph(charset: &[u8], string: u16, glyph_count: u16) -> Option<GlyphId> {
    for glyph in 1..glyph_count {
        if u16_at(charset, 2 * usize::from(glyph) - 1)? == string {
            return Some(GlyphId(glyph));
        }
    }
    None
}

/// The same, for a charset of ranges.
fn ranged_glyph(is_long: bool, charset: &[u8], string: u16, glyph_count: u16) -> Option<GlyphId> {
    let mut glyph = 1;
    for row in 0..u32::from(glyph_count) {
        let first = u16_at(charset, range_place(is_long, row))?;
        let left = range_left(is_long, charset, row)?;
        if first <= string && string - first <= left {
            glyph += u32::from(string - first);
            return if glyph < u32::from(glyph_count) {
                Some(GlyphId(glyph as u16))
            } else {
                None
            };
        }
        glyph += u32::from(left) + 1;
        if glyph >= u32::from(glyph_count) {
            return None;
        }
    }
    None
}
