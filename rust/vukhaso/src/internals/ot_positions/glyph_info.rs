// Written by tools/plain_rust from crates/ot_positions. Do not edit.

//! What is asked of a glyph where it is placed: what its font and its lookups say of it.

use crate::buffer::{GlyphPropsFlags, UnicodeProps, hb_glyph_info_t};

/// Whether the glyph is that of a character which is invisible by default, and no lookup put it there.
pub(crate) fn is_default_ignorable(info: &hb_glyph_info_t) -> bool {
    info.unicode_props() & UnicodeProps::IGNORABLE.bits() != 0
        && info.glyph_props() & GlyphPropsFlags::SUBSTITUTED.bits() == 0
}

/// Whether the glyph is a mark by its font.
pub(crate) fn is_mark(info: &hb_glyph_info_t) -> bool {
    info.glyph_props() & GlyphPropsFlags::MARK.bits() != 0
}

/// Whether a lookup made the glyph from several, and did not take it apart again.
pub(crate) fn has_ligated(info: &hb_glyph_info_t) -> bool {
    info.glyph_props() & GlyphPropsFlags::LIGATED.bits() != 0
}
