// Written by tools/plain_rust from crates/glyph_lists. Do not edit.

//! A glyph that leaves the input, and its cluster, which is kept where it is lower than its neighbour's.

use crate::glyph::hb_glyph_info_t;
use crate::glyph_lists::cluster_order::ClusterOrder;
use crate::glyph_lists::clusters::set_range;
use crate::glyph_lists::merging::merge_input;

/// Whether the first glyph is in the cluster.
#[inline(always)]
fn first_is_in(info: &[hb_glyph_info_t], cluster: u32) -> bool {
    !info.is_empty() && info[0].cluster == cluster
}

/// Whether the last glyph is in the cluster.
#[inline(always)]
fn last_is_in(info: &[hb_glyph_info_t], cluster: u32) -> bool {
    !info.is_empty() && info[info.len() - 1].cluster == cluster
}

/// Whether a neighbour on either side has the cluster of the first glyph of the input.
///
/// # Requires
///
/// - `0 < length input.now`
#[inline(always)]
fn has_neighbour_in_cluster(out: &[hb_glyph_info_t], input: &[hb_glyph_info_t]) -> bool {
    debug_assert!(!input.is_empty());
    let cluster = input[0].cluster;
    first_is_in(&input[1..], cluster) || last_is_in(out, cluster)
}

/// Whether the trailing run of `out` takes the cluster of the first glyph of the input before that
/// goes.
///
/// # Requires
///
/// - `0 < length input.now`
#[inline(always)]
fn lowers_run(out: &[hb_glyph_info_t], input: &[hb_glyph_info_t]) -> bool {
    debug_assert!(!input.is_empty());
    !has_neighbour_in_cluster(out, input)
        && !out.is_empty()
        && input[0].cluster < out[out.len() - 1].cluster
}

/// Whether the first glyph of the input is merged with the next one before it goes.
///
/// # Requires
///
/// - `0 < length input.now`
///
/// # Proved
///
/// ```text
/// ensures { result
///     ≡ merges_next out.now (slice_index_or input.now 0 zero_glyph) (drop 1 input.now) }
/// ```
#[inline(always)]
pub fn merges_next(out: &[hb_glyph_info_t], input: &[hb_glyph_info_t]) -> bool {
    debug_assert!(!input.is_empty());
    out.is_empty() && input.len() > 1 && !has_neighbour_in_cluster(out, input)
}

/// Where the run of `cluster` begins that ends the list.
#[inline(always)]
fn trailing_run_start(info: &[hb_glyph_info_t], cluster: u32) -> usize {
    let mut start = info.len();
    while start > 0 && info[start - 1].cluster == cluster {
        start -= 1;
    }
    start
}

/// Puts the trailing run into a cluster, with the glyph flags of `mask` where that changes theirs.
///
/// # Requires
///
/// - `0 < length out.old`
///
/// # Proved
///
/// ```text
/// ensures { out.new ≡ with_trailing_run cluster mask out.old }
/// ```
#[inline(always)]
pub fn set_trailing_run(out: &mut [hb_glyph_info_t], cluster: u32, mask: u32) {
    debug_assert!(!out.is_empty());
    let len = out.len();
    let last = out[len - 1].cluster;
    let start = trailing_run_start(out, last);
    set_range(out, start, len, cluster, mask);
}

/// Keeps the cluster of the first glyph of the input, which then leaves it: what stands there
/// afterwards is left open.
///
/// # Requires
///
/// - `0 < length input.old`
///
/// # Proved
///
/// ```text
/// ensures out { out.new ≡ (deletion (is_any order)
///     out.old (slice_index_or input.old 0 zero_glyph) (drop 1 input.old)).out }
/// ensures rest { drop 1 input.new ≡ (deletion (is_any order)
///     out.old (slice_index_or input.old 0 zero_glyph) (drop 1 input.old)).rest }
/// ```
#[inline(always)]
pub fn keep_cluster(
    out: &mut [hb_glyph_info_t],
    input: &mut [hb_glyph_info_t],
    order: ClusterOrder,
) {
    // A glyph before it whose cluster is no higher is what most deletions find, and nothing changes then.
    debug_assert!(!input.is_empty());
    if !out.is_empty() && out[out.len() - 1].cluster <= input[0].cluster {
        return;
    }
    keep_in_neighbour(out, input, order);
}

/// Keeps the cluster of the first glyph of the input as `keep_cluster` does, whatever stands before it.
/// It stands out of line, as most deletions need no more than one test.
///
/// # Requires
///
/// - `0 < length input.old`
#[inline(never)]
fn keep_in_neighbour(
    out: &mut [hb_glyph_info_t],
    input: &mut [hb_glyph_info_t],
    order: ClusterOrder,
) {
    debug_assert!(!input.is_empty());
    let head = input[0];
    if lowers_run(out, input) {
        set_trailing_run(out, head.cluster, head.mask);
        return;
    }
    if merges_next(out, input) {
        merge_input(out, input, 0, 2, order);
    }
}
