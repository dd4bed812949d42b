use crate::glyphs::lists::{assert_clusters, assert_glyphs, glyph, glyphs};
use vukhaso::internals::glyph_lists::cluster_order::ClusterOrder;
use vukhaso::internals::glyph_lists::cluster_order::ClusterOrder::{Any, Monotone};
use vukhaso::internals::glyph_lists::deletion::{keep_cluster, merges_next, set_trailing_run};

/// What was put out, if anything, and the current glyph with the two glyphs after it.
static DELETIONS: [(
    usize,
    [u32; 2],
    [u32; 3],
    ClusterOrder,
    &[u32],
    &[(u32, u32)],
); 6] = [
    (0, [0, 0], [0, 0, 1], Monotone, &[0, 0], &[(0, 0), (1, 0)]),
    (2, [3, 2], [2, 1, 0], Monotone, &[3, 2], &[(1, 0), (0, 0)]),
    (2, [3, 3], [2, 1, 0], Monotone, &[2, 2], &[(1, 0), (0, 0)]),
    (2, [0, 0], [5, 1, 1], Monotone, &[0, 0], &[(1, 0), (1, 0)]),
    (0, [0, 0], [0, 1, 2], Monotone, &[0, 0], &[(0, 0), (2, 0)]),
    (0, [0, 0], [0, 1, 2], Any, &[0, 0], &[(1, 3), (2, 0)]),
];

#[test]
fn a_lower_cluster_is_kept() {
    for &(out_len, before, input, order, after, rest) in &DELETIONS {
        let mut out = glyphs(before);
        let mut input = glyphs(input);
        assert!(out_len <= 2);
        keep_cluster(&mut out[..out_len], &mut input, order);
        assert_clusters(&out, after);
        assert_glyphs(&input[1..], rest);
    }
}

#[test]
fn the_trailing_run_takes_the_flags_too() {
    let mut out = [glyph(7, 2), glyph(4, 15), glyph(4, 0)];
    set_trailing_run(&mut out, 1, 6);
    assert_glyphs(&out, &[(7, 2), (1, 14), (1, 6)]);
}

#[test]
fn the_last_glyph_is_merged_with_none() {
    assert!(merges_next(&[], &glyphs([0, 1])));
    assert!(!merges_next(&[], &glyphs([1])));
    assert!(!merges_next(&glyphs([3]), &glyphs([0, 1])));
}
