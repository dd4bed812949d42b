// Written by tools/plain_rust from crates/outline_tables. Do not edit.

//! The items of an INDEX (The Compact Font Format Specification, "INDEX Data").

use crate::font_tables::bytes::{u8_at, u16_at};
use crate::font_variations::index_map::number_of_size;
use crate::outline_tables::glyf::between;

/// How many items an INDEX has; none where the table is empty.
///
/// # Proved
///
/// ```text
/// ensures { result ≡ index_count index.now }
/// ```
#[inline]
pub fn index_count(index: &[u8]) -> u16 {
    u16_at(index, 0).unwrap_or(0)
}

/// How many bytes each offset has.
fn offset_size(index: &[u8]) -> u8 {
    u8_at(index, 2).unwrap_or(0)
}

/// The offset of a number.
fn index_offset(index: &[u8], number: u32) -> Option<u32> {
    let size = offset_size(index);
    number_of_size(size, index, 3 + usize::from(size) * number as usize)
}

/// The place that offsets count from: the byte before the first item.
fn index_base(index: &[u8]) -> u32 {
    2 + u32::from(offset_size(index)) * (u32::from(index_count(index)) + 1)
}

/// The bytes of an item; `None` where the INDEX has no such item.
///
/// # Proved
///
/// ```text
/// ensures { option_copied result ≡ index_item index.now number }
/// ```
#[inline]
pub fn index_item(index: &[u8], number: u32) -> Option<&[u8]> {
    if number < u32::from(index_count(index)) {
        let start = index_offset(index, number)?;
        let end = index_offset(index, number + 1)?;
        let base = index_base(index) as usize;
        Some(between(index, base + start as usize, base + end as usize))
    } else {
        None
    }
}

/// How many bytes an INDEX has; `None` where its offsets do not lie in the table.
///
/// # Proved
///
/// ```text
/// ensures { result ≡ index_size index.now }
/// ```
#[inline]
pub fn index_size(index: &[u8]) -> Option<usize> {
    let count = u16_at(index, 0)?;
    if count == 0 {
        Some(2)
    } else {
        let end = index_offset(index, u32::from(count))?;
        Some(index_base(index) as usize + end as usize)
    }
}
