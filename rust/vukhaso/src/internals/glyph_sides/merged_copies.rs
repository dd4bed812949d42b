// Written by tools/plain_rust from crates/glyph_sides. Do not edit.

//! Glyphs that give way to copies of their first one, once they are merged.

use crate::glyph::hb_glyph_info_t;
use crate::glyph_lists::cluster_order::ClusterOrder;
use crate::glyph_lists::merging::merge_input;
use crate::glyph_sides::copies::{append_copies, write_copies};
use crate::glyph_sides::one_slice;
use crate::memory::Vec;
use core::ops::Range;

/// Merges, or marks, the first `count` glyphs of the input, and puts copies of the first of them as it
/// then stands after `out`, where there is room.
///
/// # Requires
///
/// - `glyph: 0 < length input.old`
/// - `within: count ≤ length input.old`
/// - `room: length out.old.items + length ids.now ≤ vec_capacity out.old`
pub(crate) fn append_merged(
    out: &mut Vec<hb_glyph_info_t>,
    input: &mut [hb_glyph_info_t],
    count: usize,
    ids: &[u32],
    order: ClusterOrder,
) {
    debug_assert!(!input.is_empty());
    debug_assert!(count <= input.len());
    debug_assert!(out.len() + ids.len() <= out.capacity());
    merge_input(out, input, 0, count, order);
    append_copies(out, input[0], ids);
}

/// Does the same where both sides lie in one slice, the places of `gap` between them, and the copies
/// have room there.
///
/// # Requires
///
/// - `gap: gap.start ≤ gap.end`
/// - `glyph: gap.end < length info.old`
/// - `within: count ≤ length info.old - gap.end`
/// - `room: gap.start + length ids.now ≤ gap.end + count`
pub(crate) fn write_merged(
    info: &mut [hb_glyph_info_t],
    gap: Range<usize>,
    count: usize,
    ids: &[u32],
    order: ClusterOrder,
) {
    let (placed, cursor) = (gap.start, gap.end);
    one_slice::merge_input(info, gap, 0, count, order);
    let glyph = info[cursor];
    write_copies(info, placed, glyph, ids);
}
