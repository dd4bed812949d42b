// Written by tools/plain_rust from crates/font_functions. Do not edit.

//! The functions of a font (HarfBuzz's `hb_font_funcs_t`).

use crate::common::GlyphId;
use crate::glyph::GlyphExtents;
use crate::memory::AllocError;

/// What a font answers. All measures are at the size at which the font is used. Each time that a character is asked for, there is
/// a glyph or there is none; all else may be answered otherwise each time. HarfBuzz's name is `hb_font_funcs_t`.
///
/// # Proved
///
/// ```text
/// ghost has: { Self → ℕ → Bool }
/// ghost may_have: { Self → ℕ → Option ℕ → Type 0 }
/// ghost may_advance: { Self → ℕ → ℤ → Type 0 }
/// ```
pub trait FontFunctions {
    /// The glyph of a character; `None` where the font has none.
    ///
    /// # Proved
    ///
    /// ```text
    /// ensures there { is_some result ≡ has self.now character }
    /// ensures glyph { may_have self.now character (option_map (λ glyph. glyph.0) result) }
    /// ```
    fn nominal_glyph(&self, character: u32) -> Option<GlyphId>;

    /// The glyph of a character before a variation selector; `None` where the font does not have the two.
    ///
    /// # Proved
    ///
    /// That it returns.
    fn variation_glyph(&self, character: u32, selector: u32) -> Option<GlyphId>;

    /// How far a glyph moves the pen to the right in horizontal lines.
    ///
    /// # Proved
    ///
    /// ```text
    /// ensures { may_advance self.now glyph.0 result }
    /// ```
    fn glyph_h_advance(&self, glyph: GlyphId) -> i32;

    /// How far a glyph moves the pen up in vertical lines, which mostly is a negative number.
    ///
    /// # Proved
    ///
    /// That it returns.
    fn glyph_v_advance(&self, glyph: GlyphId) -> i32;

    /// Where a glyph's origin in vertical lines stands, from its origin in horizontal ones.
    ///
    /// # Errors
    ///
    /// `Err(AllocError)` where memory ran out.
    ///
    /// # Proved
    ///
    /// That it returns.
    fn glyph_v_origin(&self, glyph: GlyphId) -> Result<(i32, i32), AllocError>;

    /// The bounds of a glyph; `None` where the font has none of it.
    ///
    /// # Errors
    ///
    /// `Err(AllocError)` where memory ran out.
    ///
    /// # Proved
    ///
    /// That it returns.
    fn glyph_extents(&self, glyph: GlyphId) -> Result<Option<GlyphExtents>, AllocError>;

    /// Where a point of a glyph's outline is, to the right and upwards; `None` where the font does not know
    /// it. It is asked for at sizes in pixels, for anchors of format 2.
    ///
    /// # Proved
    ///
    /// That it returns.
    fn glyph_contour_point(&self, glyph: GlyphId, point: u16) -> Option<(i32, i32)>;
}
