// Written by tools/plain_rust from crates/ot_plan. Do not edit.

//! What the shapers of scripts ask of a font.

use crate::common::GlyphId;
use crate::font_face::Face;
use crate::font_functions::FontFunctions;
use crate::script_items::FontGlyphs;

/// A font, as the shapers of scripts ask it.
#[derive(Debug)]
pub struct FaceGlyphs<'a, F> {
    /// The face, which has the scale.
    pub face: &'a Face<'a>,
    /// The functions of the font.
    pub font: &'a F,
}

///
/// # Proved
///
/// ```text
/// ghost has = { λ asked. F.has asked.font.now }
/// ```
impl<F: FontFunctions> FontGlyphs for FaceGlyphs<'_, F> {
    fn has_glyph(&self, character: u32) -> bool {
        self.font.nominal_glyph(character).is_some()
    }

    fn glyph_of(&self, character: u32) -> Option<u16> {
        match self.font.nominal_glyph(character) {
            Some(glyph) => Some(glyph.0),
            None => None,
        }
    }

    fn horizontal_advance(&self, glyph: u32) -> i32 {
        let glyph = GlyphId(u16::try_from(glyph).unwrap_or(0));
        self.font.glyph_h_advance(glyph)
    }

    fn is_mirrored(&self) -> bool {
        self.face.scale.x < 0
    }
}
