// Written by tools/plain_rust from crates/glyph_lists. Do not edit.

//! Masks of features, set over ranges of clusters.

use crate::glyph::hb_glyph_info_t;

/// Gives the glyph a mask.
#[inline(always)]
fn set_mask(glyph: &mut hb_glyph_info_t, mask: u32) {
    glyph.mask = mask;
}

/// Gives each glyph the mask.
///
/// # Proved
///
/// ```text
/// ensures { info.new ≡ reset_masks mask info.old }
/// ```
#[inline]
pub fn reset_masks(info: &mut [hb_glyph_info_t], mask: u32) {
    for glyph in info.iter_mut() {
        set_mask(glyph, mask);
    }
}

/// Whether the range of clusters from `start` up to `end` holds the cluster; 0 to the largest number
/// holds all.
#[inline(always)]
fn is_in_clusters(cluster: u32, start: u32, end: u32) -> bool {
    (start == 0 && end == u32::MAX) || (start <= cluster && cluster < end)
}

/// Gives the bits of `mask` those of `value`.
#[inline(always)]
fn set_bits(glyph: &mut hb_glyph_info_t, value: u32, mask: u32) {
    glyph.mask = (glyph.mask & !mask) | (value & mask);
}

/// Gives the bits of `mask` those of `value`, if the range of clusters holds the glyph's.
#[inline(always)]
fn set_bits_in(glyph: &mut hb_glyph_info_t, value: u32, mask: u32, start: u32, end: u32) {
    if is_in_clusters(glyph.cluster, start, end) {
        set_bits(glyph, value, mask);
    }
}

/// Gives the bits of `mask` those of `value`, in each glyph whose cluster is in the range. The mask 0
/// sets nothing.
///
/// # Proved
///
/// ```text
/// ensures { info.new ≡ set_masks value mask cluster_start cluster_end info.old }
/// ```
#[inline]
pub fn set_masks(
    info: &mut [hb_glyph_info_t],
    value: u32,
    mask: u32,
    cluster_start: u32,
    cluster_end: u32,
) {
    if mask == 0 {
        return;
    }
    for glyph in info.iter_mut() {
        set_bits_in(glyph, value, mask, cluster_start, cluster_end);
    }
}
