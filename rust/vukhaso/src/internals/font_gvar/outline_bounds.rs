// Written by tools/plain_rust from crates/font_gvar. Do not edit.

//! The bounds of glyphs at a place in the variations of a font.

use crate::common::GlyphId;
use crate::font_gvar::outlines::last_phantoms;
use crate::font_gvar::phantoms::{DEEPEST_GLYPH, MOST_GLYPHS, Phantoms};
use crate::font_gvar::points::{OutlinePoint, Point};
use crate::font_gvar::sources::{GlyphSources, PointSource};
use crate::font_variations::rounding::{float, greater, lesser, rounded};
use crate::glyph::GlyphExtents;
use crate::memory::{AllocError, Vec};
use crate::outline_tables::glyf::NO_BOX;

/// An outline at a place in the variations of a font.
#[derive(Clone, Copy, Debug)]
pub struct VariedOutline {
    /// The box around its points, in whole font units.
    pub extents: GlyphExtents,
    /// The box around its points.
    pub bounds: PointBounds,
    /// Its phantom points.
    pub phantoms: Phantoms,
}

/// The outline of a glyph at these coordinates, moved so that its origin in horizontal lines is at 0.
///
/// # Errors
///
/// `None` where the font has no outline of the glyph, or it is broken; `Err(AllocError)` where memory
/// runs out.
///
/// # Proved
///
/// That it returns.
#[inline]
pub fn varied_outline(
    sources: &GlyphSources<'_>,
    glyph: GlyphId,
    coordinates: &[i32],
) -> Result<Option<VariedOutline>, AllocError> {
    let mut points = Vec::new();
    let mut steps = MOST_GLYPHS;
    let source = PointSource {
        sources,
        coordinates,
    };
    if !source.push_glyph(glyph, DEEPEST_GLYPH, &mut steps, &mut points)? {
        return Ok(None);
    }
    let all = points.as_slice();
    Ok(Some(outline_of(all, &last_phantoms(all))))
}

/// The outline of these points, of which the last four are its phantom points.
fn outline_of(points: &[OutlinePoint], phantoms: &Phantoms) -> VariedOutline {
    let by = Point {
        x: -phantoms.left.x,
        y: 0.0,
    };
    let bounds = bounds_of(&points[..points.len().saturating_sub(4)], by);
    VariedOutline {
        extents: bounds.extents(),
        bounds,
        phantoms: Phantoms {
            left: phantoms.left.moved(by),
            right: phantoms.right.moved(by),
            top: phantoms.top.moved(by),
            bottom: phantoms.bottom.moved(by),
        },
    }
}

/// The box around points, each moved by a distance.
fn bounds_of(points: &[OutlinePoint], by: Point) -> PointBounds {
    let mut bounds = PointBounds::EMPTY;
    for point in points {
        bounds = bounds.including(point.at.moved(by));
    }
    bounds
}

/// The box around points: one without points ends before it begins.
#[derive(Clone, Copy, Debug)]
pub struct PointBounds {
    /// The left and lower corner.
    pub min: Point,
    /// The right and upper corner.
    pub max: Point,
}

impl PointBounds {
    /// The box around no point: from the greatest float down to the least.
    const EMPTY: PointBounds = PointBounds {
        min: Point {
            x: f32::MAX,
            y: f32::MAX,
        },
        max: Point {
            x: f32::MIN,
            y: f32::MIN,
        },
    };

    /// The least box around this one and a point.
    fn including(self, point: Point) -> PointBounds {
        PointBounds {
            min: Point {
                x: lesser(self.min.x, point.x),
                y: lesser(self.min.y, point.y),
            },
            max: Point {
                x: greater(self.max.x, point.x),
                y: greater(self.max.y, point.y),
            },
        }
    }

    /// The box in whole font units: its left side and its top are rounded, and so is how far it is from
    /// there to the other sides.
    fn extents(self) -> GlyphExtents {
        if self.min.x >= self.max.x || self.min.y >= self.max.y {
            return NO_BOX;
        }
        let x_bearing = rounded(self.min.x);
        let y_bearing = rounded(self.max.y);
        GlyphExtents {
            x_bearing,
            y_bearing,
            width: rounded(self.max.x - float(x_bearing)),
            height: rounded(self.min.y - float(y_bearing)),
        }
    }
}
