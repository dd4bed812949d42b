// Written by tools/plain_rust from crates/glyph_lists. Do not edit.

//! Marks glyphs as unsafe to break before.
//!
//! A scan adds bits to the masks of the glyphs that are not in the least cluster of their range. In any order of
//! clusters it reads every cluster. Else it goes by the clusters at the ends, and stops at the first glyph of the
//! least of these.

use crate::glyph::{glyph_flag, hb_glyph_info_t};
use crate::glyph_lists::cluster_order::ClusterOrder;

/// What `unsafe_to_break` adds, and a merge in any order of clusters: what is unsafe to break is unsafe to concatenate.
pub const BREAK_BITS: u32 = glyph_flag::UNSAFE_TO_BREAK | glyph_flag::UNSAFE_TO_CONCAT;

/// Adds the bits to the glyph's mask.
#[inline(always)]
fn mark(glyph: &mut hb_glyph_info_t, bits: u32) {
    glyph.mask |= bits;
}

/// Adds the bits to the glyph's mask, unless it is in the cluster.
#[inline(always)]
fn mark_unless_in(glyph: &mut hb_glyph_info_t, bits: u32, cluster: u32) {
    if glyph.cluster != cluster {
        mark(glyph, bits);
    }
}

/// Adds the bits to the mask of each glyph.
#[inline(always)]
fn mark_all(info: &mut [hb_glyph_info_t], bits: u32) {
    for glyph in info.iter_mut() {
        mark(glyph, bits);
    }
}

/// Adds the bits to the mask of each glyph from `start` to `end`.
///
/// # Requires
///
/// - `order: start ≤ end`
/// - `within: end ≤ length info.old`
#[inline(always)]
fn mark_slice(info: &mut [hb_glyph_info_t], start: usize, end: usize, bits: u32) {
    debug_assert!(start <= end);
    debug_assert!(end <= info.len());
    mark_all(&mut info[start..end], bits);
}

/// Adds the bits to the mask of each glyph from `start` to `end` of the two sides as one list, `out`
/// first.
///
/// # Requires
///
/// - `order: start ≤ end`
/// - `within: end ≤ length out.old + length input.old`
#[inline(always)]
pub(crate) fn mark_range(
    out: &mut [hb_glyph_info_t],
    input: &mut [hb_glyph_info_t],
    start: usize,
    end: usize,
    bits: u32,
) {
    debug_assert!(start <= end);
    debug_assert!(end <= out.len() + input.len());
    let len = out.len();
    if start < len {
        mark_slice(out, start, end.min(len), bits);
    }
    if end > len {
        mark_slice(input, start.saturating_sub(len), end - len, bits);
    }
}

/// Adds the bits to the mask of each glyph that is not in the cluster.
#[inline(always)]
fn mark_others(info: &mut [hb_glyph_info_t], bits: u32, cluster: u32) {
    for glyph in info.iter_mut() {
        mark_unless_in(glyph, bits, cluster);
    }
}

/// Adds the bits to the glyphs before the first one of the cluster, from the start on. The last glyph
/// is in the cluster, and is not read.
///
/// # Requires
///
/// - `some: 0 < length info.old`
/// - `last: slice_index (clusters info.old) (length info.old - 1) ≡ cluster`
#[inline(always)]
fn mark_before_first(info: &mut [hb_glyph_info_t], bits: u32, cluster: u32) {
    debug_assert!(!info.is_empty());
    let mut end = 0;
    while end + 1 < info.len() && info[end].cluster != cluster {
        mark(&mut info[end], bits);
        end += 1;
    }
}

/// Adds the bits to the glyphs after the last one of the cluster, from the end down. The first glyph is
/// in the cluster, and is not read.
///
/// # Requires
///
/// - `some: 0 < length info.old`
/// - `first: slice_index (clusters info.old) 0 ≡ cluster`
#[inline(always)]
fn mark_after_last(info: &mut [hb_glyph_info_t], bits: u32, cluster: u32) {
    debug_assert!(!info.is_empty());
    let mut start = info.len();
    while start > 1 && info[start - 1].cluster != cluster {
        start -= 1;
        mark(&mut info[start], bits);
    }
}

/// Scans one part by its ends, `least` being the least cluster of all ends: from the end that is not of
/// the least cluster up to the first glyph of it.
#[inline(always)]
fn mark_part(info: &mut [hb_glyph_info_t], bits: u32, least: u32) {
    let len = info.len();
    if len == 0 {
        return;
    }
    if info[0].cluster == least {
        mark_after_last(info, bits, least);
    } else if info[len - 1].cluster == least {
        mark_before_first(info, bits, least);
    } else {
        mark_others(info, bits, least);
    }
}

/// The lesser of the first cluster and the last, 0 where there is no glyph.
#[inline(always)]
fn least_end(info: &[hb_glyph_info_t]) -> u32 {
    let len = info.len();
    if len == 0 {
        return 0;
    }
    info[0].cluster.min(info[len - 1].cluster)
}

/// The least of the first and last clusters of two parts, 0 where both are empty.
#[inline(always)]
fn least_of_ends(out: &[hb_glyph_info_t], input: &[hb_glyph_info_t]) -> u32 {
    if out.is_empty() {
        return least_end(input);
    }
    if input.is_empty() {
        return least_end(out);
    }
    least_end(out).min(least_end(input))
}

/// The least cluster, 0 where there is no glyph.
fn least_of(info: &[hb_glyph_info_t]) -> u32 {
    if info.is_empty() {
        return 0;
    }
    let mut least = info[0].cluster;
    for i in 1..info.len() {
        least = least.min(info[i].cluster);
    }
    least
}

/// The least cluster of two parts, 0 where both are empty.
fn least_of_both(out: &[hb_glyph_info_t], input: &[hb_glyph_info_t]) -> u32 {
    if out.is_empty() {
        return least_of(input);
    }
    if input.is_empty() {
        return least_of(out);
    }
    least_of(out).min(least_of(input))
}

/// Scans one list in any order of clusters. It stands out of line, as most scans go by the ends.
#[inline(never)]
fn mark_outside_least(info: &mut [hb_glyph_info_t], bits: u32) {
    let least = least_of(info);
    mark_others(info, bits, least);
}

/// Scans one list.
///
/// # Proved
///
/// ```text
/// ensures { info.new ≡ scan_of (is_any order) bits info.old }
/// ```
#[inline(always)]
pub fn scan_slice(info: &mut [hb_glyph_info_t], bits: u32, order: ClusterOrder) {
    match order {
        ClusterOrder::Any => mark_outside_least(info, bits),
        ClusterOrder::Monotone => {
            let least = least_end(info);
            mark_part(info, bits, least);
        }
    }
}

/// Scans one part, by the least cluster of all parts.
#[inline(always)]
fn scan_part(info: &mut [hb_glyph_info_t], bits: u32, least: u32, order: ClusterOrder) {
    match order {
        ClusterOrder::Any => mark_others(info, bits, least),
        ClusterOrder::Monotone => mark_part(info, bits, least),
    }
}

/// The least cluster that a scan of two parts goes by.
#[inline(always)]
fn least_for_scan(
    first: &[hb_glyph_info_t],
    second: &[hb_glyph_info_t],
    order: ClusterOrder,
) -> u32 {
    match order {
        ClusterOrder::Any => least_of_both(first, second),
        ClusterOrder::Monotone => least_of_ends(first, second),
    }
}

/// Scans two parts, by the least cluster of both.
#[inline(always)]
pub(crate) fn scan_parts(
    first: &mut [hb_glyph_info_t],
    second: &mut [hb_glyph_info_t],
    bits: u32,
    order: ClusterOrder,
) {
    let least = least_for_scan(first, second, order);
    scan_part(first, bits, least, order);
    scan_part(second, bits, least, order);
}
