// Written by tools/plain_rust from crates/fault_tests. Do not edit.

//! All that can be seen of a buffer, compared with what is seen of another one.

use vukhaso::internals::buffer::{
    GlyphBuffer, GlyphPosition, UnicodeBuffer, hb_buffer_t, hb_glyph_info_t,
};

/// Whether two buffers cannot be told apart.
///
/// # Proved
///
/// That it returns.
#[inline]
pub fn same_buffers(a: &hb_buffer_t, b: &hb_buffer_t) -> bool {
    same_glyphs(a.out_info(), b.out_info())
        && same_glyphs(a.info(), b.info())
        && same_places(a, b)
        && same_positions(a, b)
        && same_settings(a, b)
        && same_words(a, b)
}

fn same_places(a: &hb_buffer_t, b: &hb_buffer_t) -> bool {
    lengths_of(a) == lengths_of(b) && sides_of(a) == sides_of(b)
}

/// How many glyphs there are, or may be, on each side of a place.
fn lengths_of(buffer: &hb_buffer_t) -> [usize; 7] {
    [
        buffer.idx(),
        buffer.len(),
        buffer.out_len(),
        buffer.max_len(),
        buffer.room(),
        buffer.backtrack_len(),
        buffer.lookahead_len(),
    ]
}

/// Whether all calls were done, an output is open, and it has storage of its own.
fn sides_of(buffer: &hb_buffer_t) -> [bool; 3] {
    [
        buffer.successful(),
        buffer.have_output(),
        buffer.have_separate_output(),
    ]
}

fn same_positions(a: &hb_buffer_t, b: &hb_buffer_t) -> bool {
    if a.have_positions() && b.have_positions() {
        return same_placing(a.pos(), b.pos());
    }
    a.have_positions() == b.have_positions()
}

/// Whether what was said of the shaping is the same.
fn same_settings(a: &hb_buffer_t, b: &hb_buffer_t) -> bool {
    (a.flags.bits(), a.cluster_level) == (b.flags.bits(), b.cluster_level)
        && a.invisible == b.invisible
        && a.not_found_variation_selector == b.not_found_variation_selector
        && (a.shaping_failed, a.serial) == (b.shaping_failed, b.serial)
        && (a.scratch_flags, a.max_ops) == (b.scratch_flags, b.max_ops)
}

/// Whether what was said of the text is the same.
fn same_words(a: &hb_buffer_t, b: &hb_buffer_t) -> bool {
    a.direction == b.direction
        && a.script == b.script
        && a.language == b.language
        && a.context(0) == b.context(0)
        && a.context(1) == b.context(1)
}

/// Whether the readers of two texts answer alike.
///
/// # Proved
///
/// That it returns.
#[inline]
pub fn same_texts(a: &UnicodeBuffer, b: &UnicodeBuffer) -> bool {
    (a.len(), a.is_empty()) == (b.len(), b.is_empty())
        && a.direction() == b.direction()
        && a.script() == b.script()
        && a.language() == b.language()
        && a.flags().bits() == b.flags().bits()
        && a.cluster_level() == b.cluster_level()
}

/// Whether shaped glyphs are the same, and stand at the same positions.
///
/// # Proved
///
/// That it returns.
#[inline]
pub fn same_shaped(a: &GlyphBuffer, b: &GlyphBuffer) -> bool {
    same_glyphs(a.glyph_infos(), b.glyph_infos())
        && same_placing(a.glyph_positions(), b.glyph_positions())
}

/// Whether two lists have the same glyphs.
fn same_glyphs(a: &[hb_glyph_info_t], b: &[hb_glyph_info_t]) -> bool {
    a.len() == b.len() && a.iter().zip(b).all(|(a, b)| same_glyph(a, b))
}

/// Whether two glyphs are the same in each field.
fn same_glyph(a: &hb_glyph_info_t, b: &hb_glyph_info_t) -> bool {
    (a.glyph_id, a.mask, a.cluster) == (b.glyph_id, b.mask, b.cluster)
        && (a.var1, a.var2) == (b.var1, b.var2)
}

/// Whether two lists have the same positions.
fn same_placing(a: &[GlyphPosition], b: &[GlyphPosition]) -> bool {
    a.len() == b.len() && a.iter().zip(b).all(|(a, b)| same_position(a, b))
}

/// Whether two positions are the same in each field.
fn same_position(a: &GlyphPosition, b: &GlyphPosition) -> bool {
    (a.x_advance, a.y_advance) == (b.x_advance, b.y_advance)
        && (a.x_offset, a.y_offset, a.var) == (b.x_offset, b.y_offset, b.var)
}
