// Written by tools/plain_rust from crates/script_syllables. Do not edit.

//! Clusters of syllables.

use crate::buffer::hb_buffer_t;

/// Merges the clusters of the items from a place to another, where they lie in the text.
///
/// # Requires
///
/// - `buffer.old.have_output ≡ false`
///
/// # Proved
///
/// ```text
/// ensures is { buffer.new ≡ merged start end buffer.old }
/// ensures stays { StaysClosed buffer.old buffer.new }
/// ```
#[inline]
pub fn merge(buffer: &mut hb_buffer_t, start: usize, end: usize) {
    debug_assert!(!buffer.have_output());
    if start <= end && end <= buffer.len() {
        buffer.merge_clusters(start, end);
    }
}
