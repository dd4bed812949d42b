// Written by tools/plain_rust from crates/buffer_tests. Do not edit.

//! Closures whose answers change from call to call: what takes a closure takes these.

use std::cell::Cell;
use vukhaso::internals::buffer::hb_buffer_t;

/// Counts its calls, and answers true but at each of so many.
fn is_counted(count: &Cell<u32>, every: u32) -> bool {
    let calls = count.get().wrapping_add(1);
    count.set(calls);
    every == 0 || calls % every != 0
}

/// Where a group ends that a counter ends.
///
/// # Requires
///
/// - `closed: buffer.now.have_output ≡ false`
/// - `within: start < len buffer.now`
///
/// # Proved
///
/// That it returns.
#[inline]
pub fn end_by_a_counter(buffer: &hb_buffer_t, start: usize, every: u32) -> usize {
    debug_assert!(!buffer.have_output());
    debug_assert!(start < buffer.len());
    let count = Cell::new(0);
    buffer.group_end(start, |_, _| is_counted(&count, every))
}

/// Reverses groups that a counter ends.
///
/// # Requires
///
/// - `buffer.old.have_output ≡ false`
///
/// # Proved
///
/// That it returns.
#[inline]
pub fn reverse_by_a_counter(buffer: &mut hb_buffer_t, every: u32, merge: bool) {
    debug_assert!(!buffer.have_output());
    let count = Cell::new(0);
    buffer.reverse_groups(|_, _| is_counted(&count, every), merge);
}

/// Deletes the glyphs that a counter picks.
///
/// # Requires
///
/// - `buffer.old.have_output ≡ false`
///
/// # Proved
///
/// That it returns.
#[inline]
pub fn delete_by_a_counter(buffer: &mut hb_buffer_t, every: u32) {
    debug_assert!(!buffer.have_output());
    let count = Cell::new(0);
    buffer.delete_glyphs_inplace(|_| is_counted(&count, every));
}
