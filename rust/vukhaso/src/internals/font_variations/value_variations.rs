// Written by tools/plain_rust from crates/font_variations. Do not edit.

//! Variations of numbers of a whole font, such as its ascender (OpenType specification, "MVAR - Metrics Variations Table").

use crate::common::Tag;
use crate::font_tables::bytes::{table_at_16, u16_at, u32_at};
use crate::font_variations::variation_store::VariationStore;

/// A table `MVAR`.
#[derive(Clone, Copy, Debug)]
pub struct ValueVariations<'a> {
    /// The bytes of the table.
    pub table: &'a [u8],
}

impl<'a> ValueVariations<'a> {
    /// The table in these bytes. One that is empty, or of another major version than 1, changes nothing.
    ///
    /// # Proved
    ///
    /// ```text
    /// ensures { result.table.now ≡ table.now }
    /// ```
    #[inline]
    pub fn new(table: &'a [u8]) -> Self {
        ValueVariations { table }
    }

    /// By how much the number with this tag changes, in font units; 0 where the table does not have it.
    ///
    /// # Proved
    ///
    /// ```text
    /// ensures { result ≡ value_delta self.now.table.now tag.0 coordinates.now }
    /// ```
    #[inline]
    pub fn delta(&self, tag: Tag, coordinates: &[i32]) -> f32 {
        match self.index_of(tag) {
            Some(index) => {
                let store = VariationStore::new(table_at_16(self.table, 10).unwrap_or(&[]));
                store.delta(index, coordinates)
            }
            None => 0.0,
        }
    }

    /// The delta set of the first record with a tag.
    fn index_of(&self, tag: Tag) -> Option<u32> {
        if !is_mvar(self.table) {
            return None;
        }
        let count = u16_at(self.table, 8).unwrap_or(0);
        let row = record_of(self.table, count, tag)?;
        let size = usize::from(u16_at(self.table, 6).unwrap_or(0));
        u32_at(self.table, 12 + size * usize::from(row) + 4)
    }
}

/// Whether these are the bytes of a table `MVAR` whose records hold a tag and a delta set.
fn is_mvar(table: &[u8]) -> bool {
    matches!(u16_at(table, 0), Some(1)) && u16_at(table, 6).unwrap_or(0) >= 8
}

/// The first of so many records that is for a tag.
fn record_of(table: &[u8], count: u16, tag: Tag) -> Option<u16> {
    for row in 0..count {
        if is_for_tag(table, row, tag) {
            return Some(row);
        }
    }
    None
}

/// Whether a record is for a tag.
fn is_for_tag(table: &[u8], row: u16, tag: Tag) -> bool {
    let size = usize::from(u16_at(table, 6).unwrap_or(0));
    match u32_at(table, 12 + size * usize::from(row)) {
        Some(number) => number == tag.0,
        None => false,
    }
}
