use crate::glyphs::lists::{assert_clusters, assert_glyphs, glyph, glyphs};
use vukhaso::internals::glyph_lists::clusters::{set_cluster, set_sides};

#[test]
fn a_change_of_cluster_takes_the_flags() {
    let mut info = glyph(3, 31);
    set_cluster(&mut info, 3, 0);
    assert_glyphs(&[info], &[(3, 31)]);
    set_cluster(&mut info, 1, 10);
    assert_glyphs(&[info], &[(1, 26)]);
}

#[test]
fn a_range_lies_on_both_sides() {
    let mut out = glyphs([3, 2]);
    let mut input = glyphs([4, 5]);
    set_sides(&mut out, &mut input, 1, 3, 1);
    assert_clusters(&out, &[3, 1]);
    assert_clusters(&input, &[1, 5]);
}
