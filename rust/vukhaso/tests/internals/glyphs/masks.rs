use crate::glyphs::lists::{assert_glyphs, glyph, glyphs};
use vukhaso::internals::glyph_lists::masks::{reset_masks, set_masks};

#[test]
fn the_full_range_holds_the_largest_cluster() {
    let mut info = glyphs([u32::MAX]);
    set_masks(&mut info, 8, 8, 1, u32::MAX);
    assert_glyphs(&info, &[(u32::MAX, 0)]);
    set_masks(&mut info, 8, 8, 0, u32::MAX);
    assert_glyphs(&info, &[(u32::MAX, 8)]);
}

#[test]
fn bits_are_set_in_a_range_of_clusters() {
    let mut info = [glyph(0, 3), glyph(1, 3), glyph(2, 3)];
    set_masks(&mut info, 0x302, 0x103, 1, 2);
    assert_glyphs(&info, &[(0, 3), (1, 0x102), (2, 3)]);
    set_masks(&mut info, 0, 0, 0, 3);
    set_masks(&mut info, 0, 2, 0, 2);
    assert_glyphs(&info, &[(0, 1), (1, 0x100), (2, 3)]);
}

#[test]
fn each_mask_is_reset() {
    let mut info = [glyph(0, 3), glyph(1, 256)];
    reset_masks(&mut info, 5);
    assert_glyphs(&info, &[(0, 5), (1, 5)]);
}
