// Written by tools/plain_rust from crates/buffer_tests. Do not edit.

//! Traits of `rb_glyph`, as others use them: an answer through a bound, and a font that meets the contracts of `GlyphNames`.

use vukhaso::internals::common::GlyphId;
use vukhaso::internals::glyph::category::GeneralCategoryExt;
use vukhaso::internals::glyph::{GlyphExtents, GlyphNames};

/// The category with this number.
///
/// # Requires
///
/// - `number < 30`
///
/// # Proved
///
/// That it returns.
#[inline]
pub fn from_number<C: GeneralCategoryExt>(number: u32) -> C {
    debug_assert!(number < 30);
    C::from_rb(number)
}

/// The length of a glyph's name and the width of the glyph, 0 where they are not known.
///
/// # Proved
///
/// That it returns.
#[inline]
pub fn measures_of<F: GlyphNames>(font: &F, glyph: GlyphId) -> (usize, i32) {
    let name = font.glyph_name(glyph).unwrap_or_default();
    let extents = font.glyph_extents(glyph).unwrap_or_default();
    (name.len(), extents.width)
}

/// A font that knows glyph 5 by name and extents, and nothing else.
pub struct Five;

///
/// # Proved
///
/// ```text
/// ghost name_of = { λ _ id. if id == 5 then Some (codes "five") else None }
/// ghost extents_of = { λ _ id. if id == 5
///     then Some (record { x_bearing = pos 1; y_bearing = negsuc 1; width = pos 3; height = negsuc 3 }) else None }
/// ```
impl GlyphNames for Five {
    fn glyph_name(&self, glyph: GlyphId) -> Option<&str> {
        if glyph.0 == 5 { Some("five") } else { None }
    }

    fn glyph_extents(&self, glyph: GlyphId) -> Option<GlyphExtents> {
        if glyph.0 != 5 {
            return None;
        }
        Some(GlyphExtents {
            x_bearing: 1,
            y_bearing: -2,
            width: 3,
            height: -4,
        })
    }
}
