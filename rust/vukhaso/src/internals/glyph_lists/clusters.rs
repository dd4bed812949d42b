// Written by tools/plain_rust from crates/glyph_lists. Do not edit.

//! Glyphs that are put into a cluster.

use crate::glyph::{glyph_flag, hb_glyph_info_t};

/// Puts the glyph into a cluster. Where that changes its cluster, its glyph flags become those of
/// `mask`.
///
/// # Proved
///
/// ```text
/// ensures { info.new ≡ with_cluster cluster mask info.old }
/// ```
#[inline(always)]
pub fn set_cluster(info: &mut hb_glyph_info_t, cluster: u32, mask: u32) {
    if info.cluster != cluster {
        info.mask = (info.mask & !glyph_flag::DEFINED) | (mask & glyph_flag::DEFINED);
        info.cluster = cluster;
    }
}

/// Puts each glyph into a cluster, with the glyph flags of `mask` where that changes its cluster.
#[inline(always)]
fn set_clusters(info: &mut [hb_glyph_info_t], cluster: u32, mask: u32) {
    for glyph in info.iter_mut() {
        set_cluster(glyph, cluster, mask);
    }
}

/// Puts the glyphs of a range into a cluster, with the glyph flags of `mask` where that changes theirs.
///
/// # Requires
///
/// - `order: start ≤ end`
/// - `within: end ≤ length info.old`
#[inline(always)]
pub(crate) fn set_range(
    info: &mut [hb_glyph_info_t],
    start: usize,
    end: usize,
    cluster: u32,
    mask: u32,
) {
    debug_assert!(start <= end);
    debug_assert!(end <= info.len());
    set_clusters(&mut info[start..end], cluster, mask);
}

/// Puts the glyphs from `start` to `end` of the two sides as one list, `out` first, into a cluster. A
/// glyph that changes its cluster loses its glyph flags.
///
/// # Requires
///
/// - `order: start ≤ end`
/// - `within: end ≤ length out.old + length input.old`
///
/// # Proved
///
/// ```text
/// ensures out { out.new ≡ take (length out.old)
///     (map_range (with_cluster cluster 0) (out.old ++ input.old) start end) }
/// ensures input { input.new ≡ drop (length out.old)
///     (map_range (with_cluster cluster 0) (out.old ++ input.old) start end) }
/// ```
#[inline(always)]
pub fn set_sides(
    out: &mut [hb_glyph_info_t],
    input: &mut [hb_glyph_info_t],
    start: usize,
    end: usize,
    cluster: u32,
) {
    debug_assert!(start <= end);
    debug_assert!(end <= out.len() + input.len());
    let len = out.len();
    if start < len {
        set_range(out, start, end.min(len), cluster, 0);
    }
    if end > len {
        set_range(input, start.saturating_sub(len), end - len, cluster, 0);
    }
}
