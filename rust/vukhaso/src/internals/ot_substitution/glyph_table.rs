// Written by tools/plain_rust from crates/ot_substitution. Do not edit.

//! Tables that list glyphs: sequences and sets of alternates (OpenType specification, "GSUB - Glyph Substitution Table").

use crate::font_tables::bytes::u16_at;

/// Glyphs of a sequence or a set of alternates.
///
/// # Proved
///
/// ```text
/// ghost counts: { count ≡ listed table.now }
/// ```
#[derive(Clone, Copy, Debug)]
pub struct Glyphs<'a> {
    /// The table, with their number at its start, and two bytes for each after it.
    pub table: &'a [u8],
    /// How many there are: none where they do not all lie in the table.
    count: u16,
}

impl<'a> Glyphs<'a> {
    /// The glyphs of a table.
    ///
    /// # Proved
    ///
    /// ```text
    /// ensures { result.table.now ≡ table.now }
    /// ```
    #[inline]
    pub fn new(table: &'a [u8]) -> Self {
        let count = u16_at(table, 0).unwrap_or(0);
        if 2 + 2 * usize::from(count) <= table.len() {
            Glyphs { table, count }
        } else {
            Glyphs { table, count: 0 }
        }
    }

    /// How many there are.
    ///
    /// # Proved
    ///
    /// ```text
    /// ensures { result ≡ listed self.now.table.now }
    /// ```
    #[inline]
    pub fn len(&self) -> u16 {
        self.count
    }

    /// The glyph of this number.
    ///
    /// # Proved
    ///
    /// ```text
    /// ensures { result ≡ listed_glyph self.now.table.now index }
    /// ```
    #[inline]
    pub fn glyph(&self, index: u16) -> u16 {
        u16_at(self.table, 2 + 2 * usize::from(index)).unwrap_or(0)
    }
}
