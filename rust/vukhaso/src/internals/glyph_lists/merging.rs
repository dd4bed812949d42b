// Written by tools/plain_rust from crates/glyph_lists. Do not edit.

//! Merges: glyphs of several clusters become one cluster, or in any order of clusters are marked instead.

use crate::glyph::hb_glyph_info_t;
use crate::glyph_lists::cluster_order::ClusterOrder;
use crate::glyph_lists::cluster_reads::ClusterReads;
use crate::glyph_lists::clusters::{set_cluster, set_range, set_sides};
use crate::glyph_lists::glyph_flags::{BREAK_BITS, scan_slice};
use crate::glyph_lists::merge_range::{PairChange, merge_range, pair_change};

/// Merges the glyphs from `start` to `end` of one list. It stands out of line, as most merges are of
/// two glyphs.
///
/// # Requires
///
/// - `some: start + 2 ≤ end`
/// - `within: end ≤ length info.old`
#[inline(never)]
fn merge_many(info: &mut [hb_glyph_info_t], start: usize, end: usize, floor: usize) {
    debug_assert!(start + 2 <= end);
    debug_assert!(end <= info.len());
    let whole = &info[..];
    let mut reads = ClusterReads::new(&[], whole);
    let (cluster, from, to) = merge_range(&mut reads, start, end, floor);
    set_range(info, from, to, cluster, 0);
}

/// Merges the two glyphs from `start` on. Mostly one of them changes, and no other glyph.
///
/// # Requires
///
/// - `within: start + 2 ≤ length info.old`
#[inline(always)]
fn merge_two(info: &mut [hb_glyph_info_t], start: usize, floor: usize) {
    debug_assert!(start + 2 <= info.len());
    let whole = &info[..];
    let mut reads = ClusterReads::new(&[], whole);
    match pair_change(&mut reads, start, start + 2, floor) {
        PairChange::Nothing => {}
        PairChange::Second(cluster) => set_cluster(&mut info[start + 1], cluster, 0),
        PairChange::First(cluster) => set_cluster(&mut info[start], cluster, 0),
        PairChange::Run => merge_many(info, start, start + 2, floor),
    }
}

/// Marks the glyphs from `start` to `end` that a merge would put into another cluster.
///
/// # Requires
///
/// - `range: start ≤ end`
/// - `within: end ≤ length info.old`
#[inline(never)]
fn mark_instead(info: &mut [hb_glyph_info_t], start: usize, end: usize) {
    debug_assert!(start <= end);
    debug_assert!(end <= info.len());
    scan_slice(&mut info[start..end], BREAK_BITS, ClusterOrder::Any);
}

/// Merges the glyphs from `start` to `end` of one list, mostly two. The range is widened through the
/// runs at its ends, its start not below `floor`. In any order of clusters those outside the least
/// cluster of the range get both break flags instead, and keep their clusters.
///
/// # Requires
///
/// - `range: start ≤ end`
/// - `within: end ≤ length info.old`
///
/// # Proved
///
/// ```text
/// ensures { info.new ≡ merge_or_mark (is_any order) info.old start end floor }
/// ```
#[inline(always)]
pub fn merge_slice(
    info: &mut [hb_glyph_info_t],
    start: usize,
    end: usize,
    floor: usize,
    order: ClusterOrder,
) {
    debug_assert!(start <= end);
    debug_assert!(end <= info.len());
    if end - start < 2 {
        return;
    }
    match order {
        ClusterOrder::Monotone if end - start == 2 => merge_two(info, start, floor),
        ClusterOrder::Monotone => merge_many(info, start, end, floor),
        ClusterOrder::Any => mark_instead(info, start, end),
    }
}

/// Merges the glyphs from `start` to `end` of the two sides as one list, `out` first.
///
/// # Requires
///
/// - `some: start + 2 ≤ end`
/// - `within: end ≤ length out.old + length input.old`
#[inline(never)]
fn merge_across(
    out: &mut [hb_glyph_info_t],
    input: &mut [hb_glyph_info_t],
    start: usize,
    end: usize,
) {
    debug_assert!(start + 2 <= end);
    debug_assert!(end <= out.len() + input.len());
    let mut reads = ClusterReads::new(out, input);
    let (cluster, from, to) = merge_range(&mut reads, start, end, 0);
    set_sides(out, input, from, to, cluster);
}

/// Whether a run goes on from `out` into `input`.
#[inline(always)]
fn run_crosses(out: &[hb_glyph_info_t], input: &[hb_glyph_info_t]) -> bool {
    !out.is_empty() && !input.is_empty() && out[out.len() - 1].cluster == input[0].cluster
}

/// Merges the glyphs from `start` to `end` of `out`. The run of the last may go on into `input`.
///
/// # Requires
///
/// - `range: start ≤ end`
/// - `within: end ≤ length out.old`
///
/// # Proved
///
/// ```text
/// ensures out { out.new ≡ take (length out.old) (run_merge (out.old ++ input.old) start end 0) }
/// ensures input { input.new
///     ≡ drop (length out.old) (run_merge (out.old ++ input.old) start end 0) }
/// ```
#[inline(never)]
pub fn merge_out(
    out: &mut [hb_glyph_info_t],
    input: &mut [hb_glyph_info_t],
    start: usize,
    end: usize,
) {
    debug_assert!(start <= end);
    debug_assert!(end <= out.len());
    if end - start < 2 {
        return;
    }
    if run_crosses(out, input) {
        merge_across(out, input, start, end);
    } else {
        merge_many(out, start, end, 0);
    }
}

/// Merges, or marks, the glyphs from `start` to `end` of `input` as `merge_slice` does. The run of the
/// first may begin in `out`.
///
/// # Requires
///
/// - `range: start ≤ end`
/// - `within: end ≤ length input.old`
///
/// # Proved
///
/// ```text
/// ensures out { out.new ≡ take (length out.old) (merge_or_mark (is_any order)
///     (out.old ++ input.old) (length out.old + start) (length out.old + end) 0) }
/// ensures input { input.new ≡ drop (length out.old) (merge_or_mark (is_any order)
///     (out.old ++ input.old) (length out.old + start) (length out.old + end) 0) }
/// ```
#[inline(never)]
pub fn merge_input(
    out: &mut [hb_glyph_info_t],
    input: &mut [hb_glyph_info_t],
    start: usize,
    end: usize,
    order: ClusterOrder,
) {
    debug_assert!(start <= end);
    debug_assert!(end <= input.len());
    if end - start < 2 {
        return;
    }
    match order {
        ClusterOrder::Any => mark_instead(input, start, end),
        ClusterOrder::Monotone => {
            if run_crosses(out, input) {
                merge_across(out, input, out.len() + start, out.len() + end);
            } else {
                merge_many(input, start, end, 0);
            }
        }
    }
}
