// Written by tools/plain_rust from crates/font_colors. Do not edit.

//! The boxes of glyphs that are drawn in colours (OpenType specification, "COLR - Color Table", "Glyph metrics and boundedness").

use crate::common::GlyphId;
use crate::font_colors::bounds::{Bounds, Status};
use crate::font_colors::colr::ColrTable;
use crate::font_colors::extents::Extents;
use crate::font_colors::outlines::DrawnOutlines;
use crate::font_colors::painter::{Canvas, DEEPEST_PAINT, Painter, Visits};
use crate::font_colors::transform::Transform;
use crate::glyph::GlyphExtents;
use crate::memory::AllocError;
use crate::numbers::saturating_f32_to_i32;
use crate::outline_tables::glyf::NO_BOX;

/// A canvas of which nothing is cut off.
const CANVAS: Canvas = Canvas {
    transform: Transform::IDENTITY,
    clip: Bounds::UNBOUNDED,
};

impl<'a> ColrTable<'a> {
    /// The box of what is painted of a glyph at a size and at these coordinates, where no box is said that
    /// it is clipped to; `None` where it has no paint and no layers. One that is painted everywhere, or
    /// nowhere, has an empty box, as in HarfBuzz. At most 2,048 paints are followed, and to a depth of 64.
    ///
    /// # Errors
    ///
    /// `Err(AllocError)` where memory runs out.
    ///
    /// # Proved
    ///
    /// That it returns.
    #[inline]
    pub fn painted_extents(
        &self,

        glyph: GlyphId,
        outlines: &DrawnOutlines<'a>,
        coordinates: &[i32],
    ) -> Result<Option<GlyphExtents>, AllocError> {
        let painter = Painter {
            colr: self,
            outlines,
            coordinates,
        };
        let bounds = match self.base_paint(glyph) {
            Some(paint) => painter.clipped_twice(glyph, paint)?,
            None => match self.layers(glyph) {
                Some(layers) => painter.filled_layers(layers.first, layers.count)?,
                None => return Ok(None),
            },
        };
        Ok(Some(whole(&bounds.extents)))
    }
}

impl<'p> Painter<'p> {
    /// The bounds of a glyph's paint. HarfBuzz paints it twice, and cuts off the second time what lies
    /// beyond the bounds of the first time; where these are none, it paints nothing.
    fn clipped_twice(self, glyph: GlyphId, paint: &'p [u8]) -> Result<Bounds, AllocError> {
        let first = self.root_bounds(glyph, paint, &CANVAS)?;
        if matches!(first.status, Status::Unbounded) {
            return Ok(Bounds::EMPTY);
        }
        self.root_bounds(glyph, paint, &CANVAS.clipped(&first.extents))
    }

    /// The bounds of a glyph's paint on a canvas of the size.
    fn root_bounds(
        self,
        glyph: GlyphId,
        paint: &'p [u8],
        canvas: &Canvas,
    ) -> Result<Bounds, AllocError> {
        let mut visits = Visits::new(glyph)?;
        let canvas = Canvas {
            transform: self.root_transform(),
            clip: canvas.clip,
        };
        self.painted(DEEPEST_PAINT, paint, &canvas, Bounds::EMPTY, &mut visits)
    }

    /// The bounds of layers that are filled with one colour each.
    fn filled_layers(self, first: u16, count: u16) -> Result<Bounds, AllocError> {
        let mut group = Bounds::EMPTY;
        for layer in 0..count {
            if let Some(glyph) = self.colr.layer_glyph(first.saturating_add(layer)) {
                let extents = self.outlines.extents(glyph, self.coordinates)?;
                group = group.united(&CANVAS.clipped(&extents).clip);
            }
        }
        Ok(group)
    }
}

/// A box in whole numbers: its left side, its top, its width and its height without their fractions, as
/// in HarfBuzz.
fn whole(extents: &Extents) -> GlyphExtents {
    if extents.is_void() {
        return NO_BOX;
    }
    GlyphExtents {
        x_bearing: saturating_f32_to_i32(extents.x_min),
        y_bearing: saturating_f32_to_i32(extents.y_max),
        width: saturating_f32_to_i32(extents.x_max - extents.x_min),
        height: saturating_f32_to_i32(extents.y_min - extents.y_max),
    }
}
