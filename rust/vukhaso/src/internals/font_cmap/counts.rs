// Written by tools/plain_rust from crates/font_cmap. Do not edit.

//! Numbers that count rows.

use crate::font_tables::bytes::{u16_at, u32_at};

/// The count of 16 bits at a place; 0 where it lies outside of the table.
pub(crate) fn count_16(table: &[u8], place: usize) -> usize {
    match u16_at(table, place) {
        Some(count) => usize::from(count),
        None => 0,
    }
}

/// The count of 32 bits at a place; 0 where it lies outside of the table.
pub(crate) fn count_32(table: &[u8], place: usize) -> usize {
    match u32_at(table, place) {
        Some(count) => count as usize,
        None => 0,
    }
}
