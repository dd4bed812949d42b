// Written by tools/plain_rust from crates/ot_lookups. Do not edit.

//! Tables in lists of tables.

use crate::font_tables::bytes::{table_at_16, u16_at};

/// The table of this number of a list of tables whose count stands at the byte 4; an empty one where
/// there is none.
///
/// # Proved
///
/// ```text
/// ensures { result.now ≡ set_at table.now index }
/// ```
#[inline]
pub fn set_at(table: &[u8], index: u32) -> &[u8] {
    if index < u32::from(u16_at(table, 4).unwrap_or(0)) {
        table_at_16(table, 6 + 2 * index as usize).unwrap_or(&[])
    } else {
        &[]
    }
}
