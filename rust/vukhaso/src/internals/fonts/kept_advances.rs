// Written by tools/plain_rust from crates/shape_fonts. Do not edit.

//! Advances of glyphs that are kept from line to line. At a place in the variations of a font each may cost as much as an outline has
//! points, or a font has regions.

use crate::buffer::{GlyphExtents, GlyphId, hb_glyph_info_t};
use crate::font_face::Face;
use crate::font_functions::{FontFunctions, OwnFunctions};
use crate::memory::AllocError;

/// How many advances are kept at most.
const KEPT: usize = 1024;

/// A glyph, and its advance in horizontal lines.
#[derive(Clone, Copy, Debug)]
pub struct KeptAdvance {
    /// The glyph.
    pub glyph: GlyphId,
    /// Its advance.
    pub advance: i32,
}

/// A font that does not look up again the advances that are kept.
///
/// # Proved
///
/// ```text
/// ghost are_own: { AreOwn own.face.now kept }
/// ```
#[derive(Debug)]
pub struct KeptAdvances<'a> {
    own: OwnFunctions<'a>,
    /// The advances: each glyph has one place, which it shares with every 1024th.
    kept: [Option<KeptAdvance>; KEPT],
}

impl<'a> KeptAdvances<'a> {
    /// A font of which no advance is kept yet.
    ///
    /// # Proved
    ///
    /// ```text
    /// ensures { result.own.face.now ≡ face.now }
    /// ```
    #[inline]
    pub fn new(face: &'a Face<'a>) -> Self {
        KeptAdvances {
            own: OwnFunctions { face },
            kept: [None; KEPT],
        }
    }

    /// Keeps the advances of the glyphs of characters, before these are shaped.
    ///
    /// # Proved
    ///
    /// That it returns.
    #[inline]
    pub fn keep_characters(&mut self, line: &str) {
        for character in line.chars() {
            if let Some(glyph) = self.own.nominal_glyph(u32::from(character)) {
                self.keep(glyph);
            }
        }
    }

    /// Keeps the advances of glyphs, among which may be others than those of the characters.
    ///
    /// # Proved
    ///
    /// That it returns.
    #[inline]
    pub fn keep_glyphs(&mut self, infos: &[hb_glyph_info_t]) {
        for info in infos {
            if let Ok(number) = u16::try_from(info.glyph_id) {
                self.keep(GlyphId(number));
            }
        }
    }

    /// Keeps the advance of a glyph, unless its place is taken.
    fn keep(&mut self, glyph: GlyphId) {
        let place = place_of(glyph);
        if self.kept[place].is_none() {
            let advance = self.own.glyph_h_advance(glyph);
            self.kept[place] = Some(KeptAdvance { glyph, advance });
        }
    }
}

/// The place of a glyph among those that are kept.
fn place_of(glyph: GlyphId) -> usize {
    usize::from(glyph.0) % KEPT
}

///
/// # Proved
///
/// ```text
/// ghost has = { λ kept. has_glyph kept.own.face.now }
/// ghost may_have = { λ kept. IsOwnGlyph kept.own.face.now }
/// ghost may_advance = { λ kept. IsOwnAdvance kept.own.face.now }
/// ```
impl FontFunctions for KeptAdvances<'_> {
    #[inline(always)]
    fn nominal_glyph(&self, character: u32) -> Option<GlyphId> {
        self.own.nominal_glyph(character)
    }

    fn variation_glyph(&self, character: u32, selector: u32) -> Option<GlyphId> {
        self.own.variation_glyph(character, selector)
    }

    /// The advance that is kept, and else the font's.
    fn glyph_h_advance(&self, glyph: GlyphId) -> i32 {
        if let Some(kept) = self.kept[place_of(glyph)] {
            if kept.glyph == glyph {
                return kept.advance;
            }
        }
        self.own.glyph_h_advance(glyph)
    }

    fn glyph_v_advance(&self, glyph: GlyphId) -> i32 {
        self.own.glyph_v_advance(glyph)
    }

    fn glyph_v_origin(&self, glyph: GlyphId) -> Result<(i32, i32), AllocError> {
        self.own.glyph_v_origin(glyph)
    }

    fn glyph_extents(&self, glyph: GlyphId) -> Result<Option<GlyphExtents>, AllocError> {
        self.own.glyph_extents(glyph)
    }

    fn glyph_contour_point(&self, glyph: GlyphId, point: u16) -> Option<(i32, i32)> {
        self.own.glyph_contour_point(glyph, point)
    }
}
