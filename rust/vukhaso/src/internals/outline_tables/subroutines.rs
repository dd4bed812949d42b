// Written by tools/plain_rust from crates/outline_tables. Do not edit.

//! The subroutines of charstrings (The Compact Font Format Specification, "Local/Global Subrs INDEXes").

use crate::outline_tables::index::{index_count, index_item};

/// The subroutine that a number calls in an INDEX; `None` where there is no such one.
///
/// # Proved
///
/// ```text
/// ensures { option_copied result ≡ subroutine index.now number }
/// ```
#[inline]
pub fn subroutine(index: &[u8], number: i32) -> Option<&[u8]> {
    let place = i64::from(number) + i64::from(bias(u32::from(index_count(index))));
    index_item(index, u32::try_from(place).ok()?)
}

/// What is added to the number of a subroutine, so that small numbers reach as many as they can.
pub(crate) fn bias(count: u32) -> u16 {
    if count < 1240 {
        107
    } else if count < 33900 {
        1131
    } else {
        32768
    }
}
