// Written by tools/plain_rust from crates/shaping_buffer. Do not edit.

//! The test of two neighbours for the calls that take groups.

use crate::glyph::hb_glyph_info_t;

/// Whether two glyphs are in one cluster, for the calls that take groups.
///
/// # Proved
///
/// ```text
/// ensures { result ≡ share_cluster a.now b.now }
/// ```
#[inline]
pub fn _cluster_group_func(a: &hb_glyph_info_t, b: &hb_glyph_info_t) -> bool {
    a.cluster == b.cluster
}
