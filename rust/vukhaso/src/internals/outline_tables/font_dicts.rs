// Written by tools/plain_rust from crates/outline_tables. Do not edit.

//! The Font DICT of a glyph of a CID-keyed font (The Compact Font Format Specification, "FDSelect").

use crate::common::GlyphId;
use crate::font_tables::bytes::{u8_at, u16_at};
use crate::font_tables::rows::{Keys16, first_row};

/// The number of a glyph's Font DICT, by a table that chooses it; `None` where the table does not reach
/// the glyph.
///
/// # Proved
///
/// ```text
/// ensures { result ≡ font_dict_of select.now glyph.0 }
/// ```
#[inline]
pub fn font_dict_of(select: &[u8], glyph: GlyphId) -> Option<u8> {
    match u8_at(select, 0)? {
        0 => u8_at(select, 1 + usize::from(glyph.0)),
        3 => ranged_dict(select, glyph),
        _ => None,
    }
}

/// The number of a glyph's Font DICT, by a table of ranges.
fn ranged_dict(select: &[u8], glyph: GlyphId) -> Option<u8> {
    let row = range_with(select, glyph)?;
    u8_at(select, 5 + 3 * usize::from(row))
}

/// The range that holds a glyph.
fn range_with(select: &[u8], glyph: GlyphId) -> Option<u16> {
    let count = u16_at(select, 1).unwrap_or(0);
    let ends = Keys16 {
        table: select,
        start: 6,
        size: 3,
    };
    let row = first_row(&ends, usize::from(count), u32::from(glyph.0) + 1, false)?;
    Some(row as u16)
}
