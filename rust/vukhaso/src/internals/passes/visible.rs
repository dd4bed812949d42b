// Written by tools/plain_rust from crates/shaping_passes. Do not edit.

//! Characters that are invisible by default are hidden, as HarfBuzz's `hb_ot_hide_default_ignorables` hides them.

use crate::buffer::{
    BufferFlags, GlyphId, GlyphPropsFlags, UnicodeProps, hb_buffer_t, hb_glyph_info_t,
};

/// Hides the glyphs of characters that are invisible by default, except those that a lookup put there:
/// under the buffer's flag `PRESERVE_DEFAULT_IGNORABLES` none. Without `REMOVE_DEFAULT_IGNORABLES` each
/// of them becomes the buffer's `invisible` glyph. Where there is no such glyph, and under the flag,
/// they are deleted as `delete_glyphs_inplace` deletes them, with their positions.
///
/// # Requires
///
/// That no output is open.
///
/// - `buffer.old.have_output ≡ false`
///
/// # Proved
///
/// ```text
/// ensures { buffer.new ≡ ignorables.hide_default_ignorables buffer.old }
/// ```
#[inline]
pub fn hide_default_ignorables(buffer: &mut hb_buffer_t) {
    debug_assert!(!buffer.have_output());
    if buffer
        .flags
        .contains(BufferFlags::PRESERVE_DEFAULT_IGNORABLES)
    {
        return;
    }
    if buffer
        .flags
        .contains(BufferFlags::REMOVE_DEFAULT_IGNORABLES)
    {
        delete_ignorables(buffer);
        return;
    }
    match buffer.invisible {
        Some(id) => make_invisible(buffer.info_slice_mut(), id),
        None => delete_ignorables(buffer),
    }
}

/// Deletes these glyphs, with their positions.
///
/// # Requires
///
/// - `buffer.old.have_output ≡ false`
fn delete_ignorables(buffer: &mut hb_buffer_t) {
    debug_assert!(!buffer.have_output());
    buffer.delete_glyphs_inplace(is_ignorable);
}

/// Puts each of them under this id.
fn make_invisible(glyphs: &mut [hb_glyph_info_t], id: GlyphId) {
    for glyph in glyphs.iter_mut() {
        hide(glyph, id);
    }
}

/// Puts the glyph under this id, if it is one of them.
fn hide(glyph: &mut hb_glyph_info_t, id: GlyphId) {
    if is_ignorable(glyph) {
        glyph.glyph_id = u32::from(id.0);
    }
}

/// Whether the glyph stands for a character that is invisible by default, and no lookup put it there.
fn is_ignorable(glyph: &hb_glyph_info_t) -> bool {
    glyph.unicode_props() & UnicodeProps::IGNORABLE.bits() != 0
        && glyph.glyph_props() & GlyphPropsFlags::SUBSTITUTED.bits() == 0
}
