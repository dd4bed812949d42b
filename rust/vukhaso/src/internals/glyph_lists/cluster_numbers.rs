// Written by tools/plain_rust from crates/glyph_lists. Do not edit.

//! Clusters that are numbered anew.

use crate::glyph::hb_glyph_info_t;

/// Makes each glyph a cluster of its own, numbered by its place modulo 2³².
///
/// # Proved
///
/// ```text
/// ensures { info.new ≡ reset_clusters 0 info.old }
/// ```
#[inline]
pub fn reset_clusters(info: &mut [hb_glyph_info_t]) {
    for (i, glyph) in info.iter_mut().enumerate() {
        glyph.cluster = (i % 0x1_0000_0000) as u32;
    }
}
