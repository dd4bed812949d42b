// Written by tools/plain_rust from crates/rb_glyph. Do not edit.

//! What a font says of its glyphs.

use crate::common::GlyphId;

/// The box around a glyph's outline, in font units.
#[derive(Clone, Copy, Debug, Default)]
pub struct GlyphExtents {
    /// The left side of the box, from the glyph's origin.
    pub x_bearing: i32,
    /// The top of the box, from the glyph's origin.
    pub y_bearing: i32,
    /// The distance from the left side to the right side.
    pub width: i32,
    /// The distance from the top to the bottom, which is negative where the y axis points up.
    pub height: i32,
}

/// A font, as far as the text of shaped glyphs asks it.
///
/// # Proved
///
/// ```text
/// ghost name_of: { Self → ℕ → Option (List ℕ) }
/// ghost extents_of: { Self → ℕ → Option GlyphExtents }
/// ```
pub trait GlyphNames {
    /// The name of a glyph, where it has one.
    ///
    /// # Proved
    ///
    /// ```text
    /// ensures { option_copied result ≡ name_of self.now glyph.0 }
    /// ```
    fn glyph_name(&self, glyph: GlyphId) -> Option<&str>;

    /// The extents of a glyph, where they are known.
    ///
    /// # Proved
    ///
    /// ```text
    /// ensures { result ≡ extents_of self.now glyph.0 }
    /// ```
    fn glyph_extents(&self, glyph: GlyphId) -> Option<GlyphExtents>;
}

/// A font that knows nothing: no glyph of it has a name, nor extents.
///
/// It is the font to pass where glyphs are written by their numbers alone.
#[derive(Clone, Copy, Debug, Default)]
pub struct NoGlyphNames;

///
/// # Proved
///
/// ```text
/// ghost name_of = { λ _ _. None }
/// ghost extents_of = { λ _ _. None }
/// ```
impl GlyphNames for NoGlyphNames {
    fn glyph_name(&self, _glyph: GlyphId) -> Option<&str> {
        None
    }

    fn glyph_extents(&self, _glyph: GlyphId) -> Option<GlyphExtents> {
        None
    }
}
