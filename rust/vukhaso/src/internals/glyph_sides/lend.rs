// Written by tools/plain_rust from crates/glyph_sides. Do not edit.

//! Glyphs that are lent on.

use crate::glyph::hb_glyph_info_t;
use crate::memory::Vec;

/// The first glyphs, to be written. A slice keeps its length, so no other glyph changes.
///
/// # Requires
///
/// - `n ≤ vec_len glyphs.old`
pub(crate) fn front_mut(glyphs: &mut Vec<hb_glyph_info_t>, n: usize) -> &mut [hb_glyph_info_t] {
    debug_assert!(n <= glyphs.len());
    start_mut(glyphs, n)
}

/// # Requires
///
/// - `n ≤ vec_len glyphs.old`
fn start_mut(glyphs: &mut Vec<hb_glyph_info_t>, n: usize) -> &mut [hb_glyph_info_t] {
    debug_assert!(n <= glyphs.len());
    glyphs.slice_mut(..n)
}
