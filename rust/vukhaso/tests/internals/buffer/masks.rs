use crate::buffer::lists::{add, assert_glyphs};
use vukhaso::internals::buffer::{UnicodeBuffer, hb_buffer_t, hb_glyph_info_t};

fn reset(buffer: &mut hb_buffer_t, mask: u32) {
    assert!(!buffer.have_output());
    buffer.reset_masks(mask);
}

/// Sets the bit 8 from a cluster to the largest.
fn set(buffer: &mut hb_buffer_t, start: u32) {
    assert!(!buffer.have_output());
    buffer.set_masks(8, 8, start, u32::MAX);
}

#[test]
fn the_largest_cluster_is_in_the_range_of_all() {
    let mut text = UnicodeBuffer::new();
    add(&mut text, 'a', u32::MAX);
    let mut buffer = text.into_buffer();
    reset(&mut buffer, 5);
    assert_glyphs(buffer.info(), &[(u32::MAX, 5)]);
    reset(&mut buffer, 0);
    for (start, mask) in [(1, 0), (0, 8)] {
        set(&mut buffer, start);
        assert_glyphs(buffer.info(), &[(u32::MAX, mask)]);
    }
}

#[test]
fn a_glyph_is_put_into_a_cluster() {
    let mut info = hb_glyph_info_t {
        glyph_id: 97,
        mask: 31,
        cluster: 3,
        var1: 0,
        var2: 0,
    };
    hb_buffer_t::set_cluster(&mut info, 1, 10);
    assert_glyphs(&[info], &[(1, 26)]);
}
