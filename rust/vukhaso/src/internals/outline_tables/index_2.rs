// Written by tools/plain_rust from crates/outline_tables. Do not edit.

//! The items of an INDEX of the table `CFF2`, whose count has 32 bits (OpenType specification, "CFF2 - Compact Font Format 2
//! Table", "INDEX Data").

use crate::font_tables::bytes::{u8_at, u32_at};
use crate::font_variations::index_map::number_of_size;
use crate::outline_tables::glyf::between;
use crate::outline_tables::subroutines::bias;

/// How many items an INDEX has; none where the table is empty.
///
/// # Proved
///
/// ```text
/// ensures { result ≡ count_2 index.now }
/// ```
#[inline]
pub fn count_2(index: &[u8]) -> u32 {
    u32_at(index, 0).unwrap_or(0)
}

/// How many bytes each offset has.
fn offset_size_2(index: &[u8]) -> u8 {
    u8_at(index, 4).unwrap_or(0)
}

/// The offset of a number.
///
/// # Requires
///
/// - `number ≤ 2 ^ 32`
fn offset_2(index: &[u8], number: u64) -> Option<u32> {
    let size = offset_size_2(index);
    number_of_size(size, index, 5 + usize::from(size) * number as usize)
}

/// The place that offsets count from: the byte before the first item.
fn base_2(index: &[u8]) -> usize {
    4 + usize::from(offset_size_2(index)) * (count_2(index) as usize + 1)
}

/// The bytes of an item; `None` where the INDEX has no such item.
///
/// # Proved
///
/// ```text
/// ensures { option_copied result ≡ item_2 index.now number }
/// ```
#[inline]
pub fn item_2(index: &[u8], number: u32) -> Option<&[u8]> {
    if number < count_2(index) {
        let start = offset_2(index, u64::from(number))?;
        let end = offset_2(index, u64::from(number) + 1)?;
        let base = base_2(index);
        Some(between(index, base + start as usize, base + end as usize))
    } else {
        None
    }
}

/// The subroutine that a number calls in an INDEX; `None` where there is no such one.
///
/// # Proved
///
/// ```text
/// ensures { option_copied result ≡ subroutine_2 index.now number }
/// ```
#[inline]
pub fn subroutine_2(index: &[u8], number: i32) -> Option<&[u8]> {
    let place = i64::from(number) + i64::from(bias(count_2(index)));
    item_2(index, u32::try_from(place).ok()?)
}
