// Written by tools/plain_rust from crates/font_colors. Do not edit.

//! The boxes of outlines, as they are drawn.

use crate::common::GlyphId;
use crate::font_colors::extents::Extents;
use crate::font_gvar::{GlyphSources, PointBounds, varied_outline};
use crate::font_outlines::path::Bounds as PathBounds;
use crate::font_outlines::{Cff2Table, CffTable};
use crate::font_tables::scale::Scale;
use crate::memory::AllocError;
use crate::numbers::nearest_i64_to_f32;

/// What outlines of glyphs are drawn from.
#[derive(Clone, Copy, Debug)]
pub struct DrawnOutlines<'a> {
    /// The outlines of `glyf`, and their variations.
    pub sources: GlyphSources<'a>,
    /// The outlines of `CFF2`, where the font has it.
    pub cff_2: Option<Cff2Table<'a>>,
    /// The outlines of `CFF `, where the font has it.
    pub cff: Option<CffTable<'a>>,
    /// The size.
    pub scale: Scale,
}

impl DrawnOutlines<'_> {
    /// The box around the points of an outline at a place in the variations, those that control its curves
    /// too, at the size; the box around nothing where there is no outline.
    ///
    /// # Errors
    ///
    /// `Err(AllocError)` where memory runs out for the points.
    pub(crate) fn extents(
        &self,

        glyph: GlyphId,
        coordinates: &[i32],
    ) -> Result<Extents, AllocError> {
        let outline = varied_outline(&self.sources, glyph, coordinates)?;
        Ok(match outline {
            Some(outline) => self.of_points(&outline.bounds),
            None => match self.path_bounds(glyph, coordinates) {
                Some(bounds) => self.of_path(&bounds),
                None => Extents::VOID,
            },
        })
    }

    /// The bounds of what a charstring draws.
    fn path_bounds(&self, glyph: GlyphId, coordinates: &[i32]) -> Option<PathBounds> {
        if let Some(table) = self.cff_2 {
            if let Some(bounds) = table.path_bounds(glyph, coordinates) {
                return Some(bounds);
            }
        }
        self.cff?.path_bounds(glyph)
    }

    /// The box of points in font units.
    fn of_points(&self, bounds: &PointBounds) -> Extents {
        if bounds.min.x > bounds.max.x {
            return Extents::VOID;
        }
        self.scaled((bounds.min.x, bounds.min.y), (bounds.max.x, bounds.max.y))
    }

    /// The box of a path.
    fn of_path(&self, bounds: &PathBounds) -> Extents {
        if bounds.min.x > bounds.max.x {
            return Extents::VOID;
        }
        self.scaled(
            (units(bounds.min.x), units(bounds.min.y)),
            (units(bounds.max.x), units(bounds.max.y)),
        )
    }

    /// The box between two corners in font units at the size.
    fn scaled(&self, low: (f32, f32), high: (f32, f32)) -> Extents {
        let x = root(self.scale.x, self.scale.units_per_em);
        let y = root(self.scale.y, self.scale.units_per_em);
        Extents::at(low.0 * x, low.1 * y).joined(&Extents::at(high.0 * x, high.1 * y))
    }
}

/// How long a font unit is where an em is so long.
pub(crate) fn root(size: i32, units_per_em: u16) -> f32 {
    nearest_i64_to_f32(i64::from(size)) / nearest_i64_to_f32(i64::from(units_per_em))
}

/// A number of 65,536ths of a font unit, in font units.
fn units(number: i64) -> f32 {
    nearest_i64_to_f32(number) / 65536.0
}
