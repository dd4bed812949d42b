// Written by tools/plain_rust from crates/script_items. Do not edit.

//! Items that are moved in front of others. They are put into one cluster before, so that clusters stay in order.

use crate::buffer::{hb_buffer_t, hb_glyph_info_t};

/// Puts the items from `start` to `end` into one cluster, where no output is open.
///
/// # Requires
///
/// - `closed: buffer.old.have_output ≡ false`
/// - `order: start ≤ end`
/// - `within: end ≤ length buffer.old.input`
///
/// # Proved
///
/// ```text
/// ensures is { buffer.new ≡ step.merge_clusters start end buffer.old }
/// ensures closed { buffer.new.have_output ≡ false }
/// ensures length { length buffer.new.input ≡ length buffer.old.input }
/// ensures one { IsOneCluster (any_order buffer.new) start end buffer.new.input }
/// ensures keeps { KeepsClusters buffer.old buffer.new }
/// ```
#[inline]
pub fn merge(buffer: &mut hb_buffer_t, start: usize, end: usize) {
    debug_assert!(!buffer.have_output());
    debug_assert!(start <= end);
    debug_assert!(end <= buffer.info().len());
    debug_assert!(buffer.out_len() == 0);
    buffer.merge_clusters(start, end);
}

/// Puts the items from `start` to `end` of those that were put out into one cluster.
///
/// # Requires
///
/// - `opened: buffer.old.have_output ≡ true`
/// - `order: start ≤ end`
/// - `within: end ≤ length buffer.old.out`
///
/// # Proved
///
/// ```text
/// ensures is { buffer.new ≡ step.merge_out_clusters start end buffer.old }
/// ensures opened { buffer.new.have_output ≡ true }
/// ensures length { length buffer.new.out ≡ length buffer.old.out }
/// ensures one { IsOneCluster (any_order buffer.new) start end buffer.new.out }
/// ensures keeps { KeepsClusters buffer.old buffer.new }
/// ```
#[inline]
pub fn merge_out(buffer: &mut hb_buffer_t, start: usize, end: usize) {
    debug_assert!(buffer.have_output());
    debug_assert!(start <= end);
    debug_assert!(end <= buffer.out_len());
    buffer.merge_out_clusters(start, end);
}

/// Moves the items from `middle` to `end` in front of those from `start` to `middle`.
///
/// # Requires
///
/// - `closed: buffer.old.have_output ≡ false`
/// - `order: start ≤ middle`
/// - `ends: middle ≤ end`
/// - `within: end ≤ length buffer.old.input`
/// - `one: IsOneCluster (any_order buffer.old) start end buffer.old.input`
///
/// # Proved
///
/// ```text
/// ensures is { buffer.new ≡ record buffer.old { input = moved start middle end buffer.old.input } }
/// ensures length { length buffer.new.input ≡ length buffer.old.input }
/// ensures closed { buffer.new.have_output ≡ false }
/// ensures keeps { KeepsClusters buffer.old buffer.new }
/// ```
#[inline]
pub fn move_back(buffer: &mut hb_buffer_t, start: usize, middle: usize, end: usize) {
    debug_assert!(!buffer.have_output());
    debug_assert!(start <= middle);
    debug_assert!(middle <= end);
    debug_assert!(end <= buffer.info().len());
    move_items(buffer.info_slice_mut(), start, middle, end);
}

/// Does that with items that were put out.
///
/// # Requires
///
/// - `opened: buffer.old.have_output ≡ true`
/// - `order: start ≤ middle`
/// - `ends: middle ≤ end`
/// - `within: end ≤ length buffer.old.out`
/// - `one: IsOneCluster (any_order buffer.old) start end buffer.old.out`
///
/// # Proved
///
/// ```text
/// ensures is { buffer.new ≡ record buffer.old { out = moved start middle end buffer.old.out } }
/// ensures opened { buffer.new.have_output ≡ true }
/// ensures keeps { KeepsClusters buffer.old buffer.new }
/// ```
#[inline]
pub fn move_out_back(buffer: &mut hb_buffer_t, start: usize, middle: usize, end: usize) {
    debug_assert!(buffer.have_output());
    debug_assert!(start <= middle);
    debug_assert!(middle <= end);
    debug_assert!(end <= buffer.out_len());
    move_items(buffer.out_info_mut(), start, middle, end);
}

/// Moves the items from `middle` to `end` in front of those from `start` to `middle`.
///
/// # Requires
///
/// - `order: start ≤ middle`
/// - `ends: middle ≤ end`
/// - `within: end ≤ length infos.old`
fn move_items(infos: &mut [hb_glyph_info_t], start: usize, middle: usize, end: usize) {
    debug_assert!(start <= middle);
    debug_assert!(middle <= end);
    debug_assert!(end <= infos.len());
    infos[start..end].rotate_right(end - middle);
}
