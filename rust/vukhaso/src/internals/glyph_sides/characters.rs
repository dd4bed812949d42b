// Written by tools/plain_rust from crates/glyph_sides. Do not edit.

//! The glyphs of a text, at the end of a list.

use crate::glyph::hb_glyph_info_t;
use crate::memory::Vec;

/// # Requires
///
/// - `vec_len info.old + length (chars text.now) ≤ vec_capacity info.old`
pub(crate) fn append_characters(info: &mut Vec<hb_glyph_info_t>, text: &str) {
    for (i, c) in text.char_indices() {
        info.push_reserved(hb_glyph_info_t {
            glyph_id: c as u32,
            mask: 0,
            cluster: (i % 0x1_0000_0000) as u32,
            var1: 0,
            var2: 0,
        });
    }
}
