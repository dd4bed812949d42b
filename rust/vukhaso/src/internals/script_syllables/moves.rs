// Written by tools/plain_rust from crates/script_syllables. Do not edit.

//! Items that change places. A range that does not lie in the list stays as it is.

use crate::buffer::hb_buffer_t;

/// Moves the first of the items from a place to another behind all of them.
///
/// # Requires
///
/// - `buffer.old.have_output ≡ false`
///
/// # Proved
///
/// ```text
/// ensures is { buffer.new ≡ record buffer.old { input = first_behind start end buffer.old.input } }
/// ensures stays { NumbersStay buffer.old buffer.new }
/// ```
#[inline]
pub fn move_first(buffer: &mut hb_buffer_t, start: usize, end: usize) {
    debug_assert!(!buffer.have_output());
    first_to_end(buffer.info_slice_mut(), start, end);
}

/// Moves the last of the items from a place to another before all of them, so many at once.
///
/// # Requires
///
/// - `buffer.old.have_output ≡ false`
///
/// # Proved
///
/// ```text
/// ensures is { buffer.new ≡ record buffer.old { input = last_before start end count buffer.old.input } }
/// ensures stays { NumbersStay buffer.old buffer.new }
/// ```
#[inline]
pub fn move_last(buffer: &mut hb_buffer_t, start: usize, end: usize, count: usize) {
    debug_assert!(!buffer.have_output());
    last_to_start(buffer.info_slice_mut(), start, end, count);
}

/// Moves the first of the items from a place to another behind all of them.
///
/// # Proved
///
/// ```text
/// ensures is { items.new ≡ first_behind start end items.old }
/// ensures moved { IsPermutation items.old items.new }
/// ```
#[inline]
pub fn first_to_end<T>(items: &mut [T], start: usize, end: usize) {
    if start < end && end <= items.len() {
        items[start..end].rotate_left(1);
    }
}

/// Moves the last of the items from a place to another before all of them, so many at once.
fn last_to_start<T>(items: &mut [T], start: usize, end: usize, count: usize) {
    if start <= end && end <= items.len() && count <= end - start {
        items[start..end].rotate_right(count);
    }
}

/// Puts the items from a place to another into reverse order.
pub(crate) fn turn<T>(items: &mut [T], start: usize, end: usize) {
    if start < end && end <= items.len() {
        items[start..end].reverse();
    }
}
