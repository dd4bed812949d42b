// Written by tools/plain_rust from crates/font_tables. Do not edit.

//! Where glyphs stand on a vertical line (OpenType specification, "VORG - Vertical Origin Table").

use crate::common::GlyphId;
use crate::font_tables::bytes::{i16_at, u16_at};
use crate::font_tables::rows::{Keys16, first_row, rises, rows_within};

/// A table `VORG`.
///
/// # Proved
///
/// ```text
/// ghost is_table: { is_there ≡ is_vorg table.now }
/// ghost counts: { count ≡ origin_count table.now }
/// ghost rise: { IsTrue are_rising → Rises (origin_glyph table.now) count }
/// ```
#[derive(Clone, Copy, Debug)]
pub struct VerticalOrigins<'a> {
    /// The bytes of the table.
    pub table: &'a [u8],
    is_there: bool,
    count: u16,
    are_rising: bool,
}

impl<'a> VerticalOrigins<'a> {
    /// The table `VORG` in these bytes.
    ///
    /// # Proved
    ///
    /// ```text
    /// ensures { result.table.now ≡ table.now }
    /// ```
    #[inline]
    pub fn new(table: &'a [u8]) -> Self {
        let count = origin_count(table);
        let are_rising = rises(&origin_glyphs(table), usize::from(count));
        VerticalOrigins {
            table,
            is_there: is_vorg(table),
            count,
            are_rising,
        }
    }

    /// The y coordinate of a glyph's vertical origin, in font units; `None` where the font has no such
    /// table.
    ///
    /// # Proved
    ///
    /// ```text
    /// ensures { result ≡ y_origin self.now.table.now glyph.0 }
    /// ```
    #[inline]
    pub fn y_origin(&self, glyph: GlyphId) -> Option<i16> {
        if !self.is_there {
            return None;
        }
        match row_of(self.table, self.count, self.are_rising, glyph) {
            Some(row) => i16_at(self.table, 10 + 4 * usize::from(row)),
            None => i16_at(self.table, 4),
        }
    }
}

/// Whether these are the bytes of a table `VORG`.
fn is_vorg(vorg: &[u8]) -> bool {
    vorg.len() >= 8 && matches!(u16_at(vorg, 0), Some(1))
}

/// The glyphs of the rows.
fn origin_glyphs(vorg: &[u8]) -> Keys16<'_> {
    Keys16 {
        table: vorg,
        start: 8,
        size: 4,
    }
}

/// How many of the rows lie in the table.
fn origin_count(vorg: &[u8]) -> u16 {
    let declared = u16_at(vorg, 6).unwrap_or(0);
    rows_within(vorg, 8, 4, usize::from(declared)) as u16
}

/// The row of a glyph, by its number.
///
/// # Requires
///
/// - `counts: count ≡ origin_count vorg.now`
/// - `rise: IsTrue are_rising → Rises (origin_glyph vorg.now) count`
fn row_of(vorg: &[u8], count: u16, are_rising: bool, glyph: GlyphId) -> Option<u16> {
    let rows = origin_glyphs(vorg);
    let row = first_row(&rows, usize::from(count), u32::from(glyph.0), are_rising)?;
    if u16_at(vorg, 8 + 4 * row)? <= glyph.0 {
        Some(row as u16)
    } else {
        None
    }
}
