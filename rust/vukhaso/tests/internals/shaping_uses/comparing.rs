// Written by tools/plain_rust from crates/shaping_uses. Do not edit.

//! Two shapings, compared by their texts.

use vukhaso::internals::buffer::{GlyphBuffer, GlyphPosition, hb_glyph_info_t};

/// Two shapings have equal texts under `NO_GLYPH_NAMES` and `GLYPH_FLAGS` exactly where they have as
/// many glyphs, with equal numbers, clusters, offsets, advances and glyph flags, whatever the fonts
/// are. So their texts may be compared in place of them.
///
/// # Proved
///
/// ```text
/// ensures { (first second : Font)
///     → (text_of first numbers_and_flags one.now ≡ text_of second numbers_and_flags other.now)
///     ↔ (map told_of (glyphs_of one.now) ≡ map told_of (glyphs_of other.now)) }
/// ```
#[inline]
pub fn equal_texts_mean_equal_glyphs(one: &GlyphBuffer, other: &GlyphBuffer) {
    glyphs_fit(one.glyph_infos(), one.glyph_positions());
    glyphs_fit(other.glyph_infos(), other.glyph_positions());
}

/// The numbers of all glyphs fit their fields.
///
/// # Requires
///
/// - `length positions.now ≡ length glyphs.now`
fn glyphs_fit(glyphs: &[hb_glyph_info_t], positions: &[GlyphPosition]) {
    debug_assert!(positions.len() == glyphs.len());
    for (i, glyph) in glyphs.iter().enumerate() {
        glyph_fits(glyph, &positions[i]);
    }
}

/// Those of one glyph.
fn glyph_fits(glyph: &hb_glyph_info_t, position: &GlyphPosition) {
    word_fits(glyph.glyph_id);
    word_fits(glyph.cluster);
    signed_fits(position.x_offset);
    signed_fits(position.y_offset);
    signed_fits(position.x_advance);
    signed_fits(position.y_advance);
}

fn word_fits(number: u32) {}

fn signed_fits(number: i32) {}
