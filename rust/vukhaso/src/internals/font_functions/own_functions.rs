// Written by tools/plain_rust from crates/font_functions. Do not edit.

//! The functions of a font that its own tables answer.

use crate::common::GlyphId;
use crate::font_face::Face;
use crate::font_functions::functions::FontFunctions;
use crate::glyph::GlyphExtents;
use crate::memory::AllocError;

/// A font whose own tables answer (HarfBuzz's `hb_ot_font_set_funcs`).
#[derive(Clone, Copy, Debug)]
pub struct OwnFunctions<'a> {
    /// The font.
    pub face: &'a Face<'a>,
}

///
/// # Proved
///
/// ```text
/// ghost has = { λ own. has_glyph own.face.now }
/// ghost may_have = { λ own. IsOwnGlyph own.face.now }
/// ghost may_advance = { λ own. IsOwnAdvance own.face.now }
/// ```
impl FontFunctions for OwnFunctions<'_> {
    #[inline(always)]
    fn nominal_glyph(&self, character: u32) -> Option<GlyphId> {
        self.face.glyph_index(character)
    }

    fn variation_glyph(&self, character: u32, selector: u32) -> Option<GlyphId> {
        self.face.glyph_variation_index(character, selector)
    }

    #[inline(always)]
    fn glyph_h_advance(&self, glyph: GlyphId) -> i32 {
        self.face.glyph_hor_advance(glyph)
    }

    fn glyph_v_advance(&self, glyph: GlyphId) -> i32 {
        self.face.glyph_ver_advance(glyph)
    }

    fn glyph_v_origin(&self, glyph: GlyphId) -> Result<(i32, i32), AllocError> {
        self.face.vertical_origin(glyph)
    }

    fn glyph_extents(&self, glyph: GlyphId) -> Result<Option<GlyphExtents>, AllocError> {
        self.face.glyph_extents(glyph)
    }

    fn glyph_contour_point(&self, _glyph: GlyphId, _point: u16) -> Option<(i32, i32)> {
        None
    }
}
