// Written by tools/plain_rust from crates/ot_positions. Do not edit.

//! The positions that a font gives glyphs before any lookup moves them. Those of the glyphs that were asked for last are kept, since at
//! a place in the variations of a font each may cost as much as an outline has points, or a font has regions.

use crate::buffer::GlyphPosition;
use crate::common::GlyphId;
use crate::font_face::Face;
use crate::font_functions::FontFunctions;
use crate::memory::AllocError;
use crate::ot_positions::positions::advanced;

/// How many positions are kept.
const KEPT: usize = 256;

/// A glyph, and the position that the font gives it.
#[derive(Clone, Copy, Debug)]
pub(crate) struct KeptPosition {
    /// The glyph.
    pub glyph: GlyphId,
    /// Its position.
    pub position: GlyphPosition,
}

/// The positions of glyphs in the lines of a direction.
#[derive(Debug)]
pub(crate) struct FontPositions<'f, 'a, F> {
    /// The face, which has the scale.
    pub face: &'f Face<'a>,
    /// The functions of the font.
    pub font: &'f F,
    /// Whether the lines are horizontal.
    pub is_horizontal: bool,
    /// Positions that were asked for: each glyph has one place, which it shares with every 256th.
    pub kept: [Option<KeptPosition>; KEPT],
}

impl<'f, 'a, F: FontFunctions> FontPositions<'f, 'a, F> {
    /// The positions that a font gives.
    pub(crate) fn new(face: &'f Face<'a>, font: &'f F, is_horizontal: bool) -> Self {
        FontPositions {
            face,
            font,
            is_horizontal,
            kept: [None; KEPT],
        }
    }

    /// The position of a glyph.
    ///
    /// # Requires
    ///
    /// - `AreTheFonts (F.may_advance self.old.font.now) self.old.is_horizontal self.old.kept`
    pub(crate) fn position(&mut self, glyph: GlyphId) -> Result<GlyphPosition, AllocError> {
        let place = usize::from(glyph.0) % KEPT;
        if let Some(kept) = self.kept[place] {
            if kept.glyph == glyph {
                return Ok(kept.position);
            }
        }
        let position = font_position(self.font, glyph, self.is_horizontal)?;
        self.kept[place] = Some(KeptPosition { glyph, position });
        Ok(position)
    }

    /// The advance of a glyph along the line.
    ///
    /// # Requires
    ///
    /// - `AreTheFonts (F.may_advance self.old.font.now) self.old.is_horizontal self.old.kept`
    pub(crate) fn advance(&mut self, glyph: GlyphId) -> Result<i32, AllocError> {
        let position = self.position(glyph)?;
        Ok(if self.is_horizontal {
            position.x_advance
        } else {
            position.y_advance
        })
    }
}

/// The position that the font gives a glyph.
fn font_position<F: FontFunctions>(
    font: &F,
    glyph: GlyphId,
    is_horizontal: bool,
) -> Result<GlyphPosition, AllocError> {
    if is_horizontal {
        return Ok(advanced(font, glyph));
    }
    let (x, y) = font.glyph_v_origin(glyph)?;
    Ok(GlyphPosition {
        y_advance: font.glyph_v_advance(glyph),
        x_offset: x.wrapping_neg(),
        y_offset: y.wrapping_neg(),
        ..GlyphPosition::default()
    })
}
