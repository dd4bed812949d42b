// Written by tools/plain_rust from crates/glyph_sides. Do not edit.

//! Merges, glyph flags and deletion where both sides lie in one slice: the out side before the places of `gap`, which stand
//! free, and the input behind them. No glyph of one side is read as one of the other.

use crate::glyph::hb_glyph_info_t;
use crate::glyph_lists::cluster_order::ClusterOrder;
use crate::glyph_lists::range_change::{self, RangeChange};
use crate::glyph_lists::{deletion, merging};
use core::ops::Range;

/// Merges, or marks, the glyphs of the input from `start` to `end`, as `merging::merge_input` does.
///
/// # Requires
///
/// - `gap: gap.start ≤ gap.end`
/// - `gap_within: gap.end ≤ length info.old`
/// - `range: start ≤ end`
/// - `within: end ≤ length info.old - gap.end`
#[inline(always)]
pub(crate) fn merge_input(
    info: &mut [hb_glyph_info_t],
    gap: Range<usize>,
    start: usize,
    end: usize,
    order: ClusterOrder,
) {
    debug_assert!(start <= end);
    let (front, input) = info.split_at_mut(gap.end);
    merging::merge_input(&mut front[..gap.start], input, start, end, order);
}

/// Merges the glyphs of the out side from `start` to `end`, as `merging::merge_out` does.
///
/// # Requires
///
/// - `gap: gap.start ≤ gap.end`
/// - `gap_within: gap.end ≤ length info.old`
/// - `range: start ≤ end`
/// - `within: end ≤ gap.start`
#[inline(always)]
pub(crate) fn merge_out(info: &mut [hb_glyph_info_t], gap: Range<usize>, start: usize, end: usize) {
    debug_assert!(start <= end);
    let (front, input) = info.split_at_mut(gap.end);
    merging::merge_out(&mut front[..gap.start], input, start, end);
}

/// Changes the glyphs from `start` to `end` of the two sides as one list, as `range_change::change`
/// does.
///
/// # Requires
///
/// - `gap: gap.start ≤ gap.end`
/// - `gap_within: gap.end ≤ length info.old`
/// - `past_out: gap.start ≤ end`
/// - `range: start ≤ end`
/// - `within: end ≤ gap.start + (length info.old - gap.end)`
#[inline(always)]
pub(crate) fn change(
    info: &mut [hb_glyph_info_t],
    gap: Range<usize>,
    start: usize,
    end: usize,
    change: RangeChange,
) {
    debug_assert!(start <= end);
    let (front, input) = info.split_at_mut(gap.end);
    range_change::change(&mut front[..gap.start], input, start, end, change);
}

/// Keeps the cluster of the first glyph of the input, which then leaves it, as `deletion::keep_cluster`
/// does.
///
/// # Requires
///
/// - `gap: gap.start ≤ gap.end`
/// - `glyph: gap.end < length info.old`
#[inline(always)]
pub(crate) fn keep_cluster(info: &mut [hb_glyph_info_t], gap: Range<usize>, order: ClusterOrder) {
    let (front, input) = info.split_at_mut(gap.end);
    deletion::keep_cluster(&mut front[..gap.start], input, order);
}
