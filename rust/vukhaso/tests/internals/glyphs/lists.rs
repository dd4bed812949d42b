//! Lists of glyphs for tests.

use vukhaso::internals::glyph::hb_glyph_info_t;

/// A glyph in the cluster, with the mask.
pub(crate) fn glyph(cluster: u32, mask: u32) -> hb_glyph_info_t {
    hb_glyph_info_t {
        glyph_id: 97,
        mask,
        cluster,
        var1: 0,
        var2: 0,
    }
}

/// Glyphs in the clusters, with masks of 0.
pub(crate) fn glyphs<const N: usize>(clusters: [u32; N]) -> [hb_glyph_info_t; N] {
    clusters.map(|cluster| glyph(cluster, 0))
}

/// Asserts the clusters and the masks of the glyphs.
pub(crate) fn assert_glyphs(glyphs: &[hb_glyph_info_t], want: &[(u32, u32)]) {
    assert!(glyphs.len() == want.len());
    for (glyph, (cluster, mask)) in glyphs.iter().zip(want) {
        assert!(glyph.cluster == *cluster, "{want:?}");
        assert!(glyph.mask == *mask, "{want:?}");
    }
}

/// Asserts the clusters of the glyphs, whose masks are 0.
pub(crate) fn assert_clusters(glyphs: &[hb_glyph_info_t], want: &[u32]) {
    assert!(glyphs.len() == want.len());
    for (glyph, cluster) in glyphs.iter().zip(want) {
        assert!(glyph.cluster == *cluster, "{want:?}");
        assert!(glyph.mask == 0, "{want:?}");
    }
}

/// Asserts the masks of the glyphs.
pub(crate) fn assert_masks(glyphs: &[hb_glyph_info_t], want: &[u32]) {
    assert!(glyphs.len() == want.len());
    for (glyph, mask) in glyphs.iter().zip(want) {
        assert!(glyph.mask == *mask, "{want:?}");
    }
}
