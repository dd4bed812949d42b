//! Glyphs of a cluster in their nominal order.

use vukhaso::internals::buffer::{GlyphPosition, hb_glyph_info_t};
use vukhaso::internals::glyphs::normalized::normalize_glyphs;

/// A glyph of this number in a cluster.
fn glyph(number: u32, cluster: u32) -> hb_glyph_info_t {
    hb_glyph_info_t {
        glyph_id: number,
        mask: 0,
        cluster,
        var1: 0,
        var2: 0,
    }
}

/// An advance and an offset to the right.
fn place(advance: i32, offset: i32) -> GlyphPosition {
    GlyphPosition {
        x_advance: advance,
        y_advance: 0,
        x_offset: offset,
        y_offset: 0,
        var: 0,
    }
}

#[test]
fn the_first_glyph_has_the_advance() {
    let mut infos = [glyph(5, 0), glyph(3, 0), glyph(8, 0), glyph(9, 1)];
    let mut positions = [place(10, 1), place(20, 2), place(0, 3), place(40, 0)];
    normalize_glyphs(&mut infos, &mut positions, false);
    let numbers = [5, 8, 3, 9];
    let advances = [30, 0, 0, 40];
    let offsets = [1, 3, -18, 0];
    for i in 0..4 {
        assert_eq!(infos[i].glyph_id, numbers[i]);
        assert_eq!(positions[i].x_advance, advances[i]);
        assert_eq!(positions[i].x_offset, offsets[i]);
    }
}

#[test]
fn the_last_glyph_has_the_advance_of_a_line_that_runs_backward() {
    let mut infos = [glyph(3, 1), glyph(5, 1), glyph(4, 1), glyph(9, 0)];
    let mut positions = [place(10, 0), place(20, 0), place(5, 0), place(40, 0)];
    normalize_glyphs(&mut infos, &mut positions, true);
    let numbers = [5, 3, 4, 9];
    let advances = [0, 0, 35, 40];
    let offsets = [10, 0, 30, 0];
    for i in 0..4 {
        assert_eq!(infos[i].glyph_id, numbers[i]);
        assert_eq!(positions[i].x_advance, advances[i]);
        assert_eq!(positions[i].x_offset, offsets[i]);
    }
}
