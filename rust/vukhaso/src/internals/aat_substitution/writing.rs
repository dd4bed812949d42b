// Written by tools/plain_rust from crates/aat_substitution. Do not edit.

//! What subtables write beside the calls of the buffer: glyphs and their properties. No cluster changes by it.

use crate::aat_substitution::work::{Done, Work};
use crate::buffer::hb_buffer_t;
use crate::common::GlyphId;
use crate::font_tables::gdef::Gdef;
use crate::glyph::hb_glyph_info_t;

/// The Unicode property of a character that is invisible by default.
const IGNORABLE: u16 = 0x0020;

/// Puts a glyph in the place of another, with the properties that the font gives it.
pub(crate) fn set_glyph(glyphs: &mut [hb_glyph_info_t], place: usize, glyph: u16, gdef: &Gdef) {
    if place < glyphs.len() {
        glyphs[place].glyph_id = u32::from(glyph);
        if gdef.has_glyph_classes() {
            glyphs[place].set_glyph_props(gdef.glyph_props(GlyphId(glyph)));
        }
    }
}

/// Puts a glyph in the place of that at a place of the buffer.
///
/// # Requires
///
/// - `buffer.old.have_output ≡ false`
pub(crate) fn replace_at(buffer: &mut hb_buffer_t, place: usize, glyph: u16, gdef: &Gdef) {
    debug_assert!(!buffer.have_output());
    set_glyph(buffer.info_slice_mut(), place, glyph, gdef);
}

/// Hides the current glyph, as one that is invisible by default.
///
/// # Requires
///
/// - `opened: buffer.old.have_output ≡ true`
/// - `glyph: 0 < length buffer.old.input`
pub(crate) fn hide_current(buffer: &mut hb_buffer_t) {
    debug_assert!(buffer.have_output());
    debug_assert!(!buffer.info().is_empty());
    let written = buffer.cur_mut(0);
    written.set_unicode_props(written.unicode_props() | IGNORABLE);
}

/// Says that shaping met a limit.
pub(crate) fn fail(buffer: &mut hb_buffer_t) {
    buffer.shaping_failed = true;
}

/// Moves the cursor to a place of both sides, or as near to it as there are glyphs.
///
/// # Requires
///
/// - `buffer.old.have_output ≡ true`
pub(crate) fn go_to(buffer: &mut hb_buffer_t, place: usize, work: &mut Work) -> Done {
    debug_assert!(buffer.have_output());
    let out_len = buffer.out_len();
    work.budget.pay_for(out_len.abs_diff(place));
    let last = out_len.saturating_add(buffer.lookahead_len());
    buffer.move_to(place.min(last))
}
