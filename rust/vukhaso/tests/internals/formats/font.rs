//! A font for tests.

use vukhaso::internals::common::GlyphId;
use vukhaso::internals::glyph::{GlyphExtents, GlyphNames};

/// A font that knows glyph 5, by a name that JSON writes otherwise and by extents, and nothing else.
pub(crate) struct Five;

impl GlyphNames for Five {
    fn glyph_name(&self, glyph: GlyphId) -> Option<&str> {
        if glyph.0 == 5 { Some("a\"b\\") } else { None }
    }

    fn glyph_extents(&self, glyph: GlyphId) -> Option<GlyphExtents> {
        if glyph.0 != 5 {
            return None;
        }
        Some(GlyphExtents {
            x_bearing: 1,
            y_bearing: -2,
            width: 3,
            height: -4,
        })
    }
}
