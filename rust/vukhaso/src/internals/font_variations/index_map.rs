// Written by tools/plain_rust from crates/font_variations. Do not edit.

//! Which delta set is for which glyph (OpenType specification, "OpenType Font Variations Common Table Formats",
//! "DeltaSetIndexMap table").

use crate::font_tables::bytes::{u8_at, u16_at, u24_at, u32_at};

/// The index of a delta set: the number of its table of deltas in the upper 16 bits, and of its row in the lower ones.
pub type DeltaSetIndex = u32;

/// A map from numbers of glyphs, or of other things, to delta sets.
#[derive(Clone, Copy, Debug)]
pub struct IndexMap<'a> {
    /// The bytes of the table.
    pub table: &'a [u8],
}

impl<'a> IndexMap<'a> {
    /// The map in these bytes. One that is empty, or of another format than 0 and 1, maps each number to
    /// itself.
    ///
    /// # Proved
    ///
    /// ```text
    /// ensures { result.table.now ≡ table.now }
    /// ```
    #[inline]
    pub fn new(table: &'a [u8]) -> Self {
        IndexMap { table }
    }

    /// The delta set of a number: that of the last entry for the numbers behind it. An entry that the table
    /// does not hold is 0.
    ///
    /// # Proved
    ///
    /// ```text
    /// ensures { result ≡ index_of self.now.table.now number }
    /// ```
    #[inline]
    pub fn index_of(&self, number: u32) -> DeltaSetIndex {
        let count = entry_count(self.table);
        if count == 0 {
            return number;
        }
        parted(
            entry(self.table, number.min(count - 1)),
            row_bits(self.table),
        )
    }
}

/// How many entries a map has; 0 where it is of an unknown format.
fn entry_count(table: &[u8]) -> u32 {
    match u8_at(table, 0) {
        Some(0) => u32::from(u16_at(table, 2).unwrap_or(0)),
        Some(1) => u32_at(table, 2).unwrap_or(0),
        _ => 0,
    }
}

/// The entry of a number.
fn entry(table: &[u8], number: u32) -> u32 {
    let start = if matches!(u8_at(table, 0), Some(0)) {
        4
    } else {
        6
    };
    let size = u8_at(table, 1).unwrap_or(0) / 16 % 4 + 1;
    number_of_size(size, table, start + usize::from(size) * number as usize).unwrap_or(0)
}

/// A number of one to four bytes at a place, its high byte first; `None` for other sizes, and where its
/// bytes do not lie in the table.
///
/// # Proved
///
/// ```text
/// ensures { result ≡ number_of_size size table.now at }
/// ```
#[inline]
pub fn number_of_size(size: u8, table: &[u8], at: usize) -> Option<u32> {
    match size {
        1 => u8_at(table, at).map(u32::from),
        2 => u16_at(table, at).map(u32::from),
        3 => u24_at(table, at),
        4 => u32_at(table, at),
        _ => None,
    }
}

/// How many bits of an entry are the number of a row.
fn row_bits(table: &[u8]) -> u32 {
    u32::from(u8_at(table, 1).unwrap_or(0) % 16) + 1
}

/// The numbers of a table of deltas and of a row that an entry holds.
///
/// # Requires
///
/// - `bits ≤ 16`
fn parted(entry: u32, bits: u32) -> DeltaSetIndex {
    debug_assert!(bits <= 16);
    (entry >> bits) % 65536 * 65536 + entry % (1 << bits)
}
