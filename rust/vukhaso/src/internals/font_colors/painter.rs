// Written by tools/plain_rust from crates/font_colors. Do not edit.

//! How far a graph of paints reaches (OpenType specification, "COLR - Color Table", "Glyph metrics and boundedness").

use crate::common::GlyphId;
use crate::font_colors::bounds::Bounds;
use crate::font_colors::colr::ColrTable;
use crate::font_colors::extents::Extents;
use crate::font_colors::outlines::{DrawnOutlines, root};
use crate::font_colors::paint_values::PaintValues;
use crate::font_colors::transform::Transform;
use crate::font_tables::bytes::{tail, u8_at, u16_at, u24_at, u32_at};
use crate::font_variations::rounding::float;
use crate::glyph::GlyphExtents;
use crate::memory::{AllocError, Vec};
use crate::numbers::nearest_i64_to_f32;

/// How deep paints may be nested, as in HarfBuzz.
pub(crate) const DEEPEST_PAINT: u8 = 64;

/// How many paints of a glyph are followed, as in HarfBuzz.
pub(crate) const MOST_PAINTS: u32 = 2048;

/// What paints are painted on.
#[derive(Clone, Copy, Debug)]
pub(crate) struct Canvas {
    /// The transform that holds.
    pub transform: Transform,
    /// What is not cut off.
    pub clip: Bounds,
}

impl Canvas {
    /// The same canvas, of which all but a box is cut off.
    pub(crate) fn clipped(&self, extents: &Extents) -> Canvas {
        let extents = self.transform.transformed(extents);
        Canvas {
            transform: self.transform,
            clip: Bounds::of(extents).intersected(&self.clip),
        }
    }

    /// The same canvas with another transform.
    fn turned(&self, transform: Transform) -> Canvas {
        Canvas {
            transform,
            clip: self.clip,
        }
    }
}

/// What a walk through paints has met.
#[derive(Debug)]
pub(crate) struct Visits {
    /// How many paints may still be followed.
    left: u32,
    /// The glyphs that are being painted.
    glyphs: Vec<u16>,
    /// The layers that are being painted.
    layers: Vec<u32>,
}

impl Visits {
    /// A walk that has met a glyph.
    pub(crate) fn new(glyph: GlyphId) -> Result<Self, AllocError> {
        let mut glyphs = Vec::new();
        glyphs.push(glyph.0)?;
        Ok(Visits {
            left: MOST_PAINTS,
            glyphs,
            layers: Vec::new(),
        })
    }
}

/// What finds how far paints reach.
#[derive(Clone, Copy, Debug)]
pub(crate) struct Painter<'p> {
    /// The table of the paints.
    pub colr: &'p ColrTable<'p>,
    /// The outlines of the glyphs.
    pub outlines: &'p DrawnOutlines<'p>,
    /// The place in the variations.
    pub coordinates: &'p [i32],
}

impl<'p> Painter<'p> {
    /// The bounds of what is painted so far, and of a paint that is painted on it.
    pub(crate) fn painted(
        self,
        depth: u8,
        paint: &'p [u8],
        canvas: &Canvas,
        group: Bounds,
        visits: &mut Visits,
    ) -> Result<Bounds, AllocError> {
        if depth == 0 || visits.left == 0 {
            return Ok(group);
        }
        visits.left -= 1;
        match u8_at(paint, 0) {
            Some(1) => self.layers(depth - 1, paint, canvas, group, visits),
            Some(2..=9) => Ok(filled(paint, canvas, group)),
            Some(10) => self.glyph(depth - 1, paint, canvas, group, visits),
            Some(11) => self.color_glyph(depth - 1, paint, canvas, group, visits),
            Some(32) => self.composite(depth - 1, paint, canvas, group, visits),
            _ => match self.transform(paint, &canvas.transform) {
                Some(transform) => {
                    let canvas = canvas.turned(transform);
                    self.painted(depth - 1, behind(paint, 1), &canvas, group, visits)
                }
                None => Ok(group),
            },
        }
    }

    /// The same of layers, one on the other.
    fn layers(
        self,
        depth: u8,
        paint: &'p [u8],
        canvas: &Canvas,
        group: Bounds,
        visits: &mut Visits,
    ) -> Result<Bounds, AllocError> {
        let (Some(count), Some(first)) = (u8_at(paint, 1), u32_at(paint, 2)) else {
            return Ok(group);
        };
        let mut group = group;
        for layer in 0..u32::from(count) {
            let layer = first.saturating_add(layer);
            if visits.layers.as_slice().contains(&layer) {
                continue;
            }
            visits.layers.push(layer)?;
            let source = self.colr.layer(layer);
            let source = self.painted(depth, source, canvas, Bounds::EMPTY, visits)?;
            group = group.united(&source);
            let _ = visits.layers.pop();
        }
        Ok(group)
    }

    /// The same of a paint that fills a glyph's outline.
    fn glyph(
        self,
        depth: u8,
        paint: &'p [u8],
        canvas: &Canvas,
        group: Bounds,
        visits: &mut Visits,
    ) -> Result<Bounds, AllocError> {
        let Some(glyph) = u16_at(paint, 4) else {
            return Ok(group);
        };
        let extents = self.outlines.extents(GlyphId(glyph), self.coordinates)?;
        let inverse = canvas.transform.after(&self.inverse_root_transform());
        let canvas = canvas.turned(inverse).clipped(&extents);
        let canvas = canvas.turned(inverse.after(&self.root_transform()));
        self.painted(depth, behind(paint, 1), &canvas, group, visits)
    }

    /// The same of a paint that is that of another glyph.
    fn color_glyph(
        self,
        depth: u8,
        paint: &'p [u8],
        canvas: &Canvas,
        group: Bounds,
        visits: &mut Visits,
    ) -> Result<Bounds, AllocError> {
        let Some(glyph) = u16_at(paint, 1) else {
            return Ok(group);
        };
        if visits.glyphs.as_slice().contains(&glyph) {
            return Ok(group);
        }
        visits.glyphs.push(glyph)?;
        let canvas = match self.colr.clip_box(GlyphId(glyph), self.coordinates) {
            Some(clip) => canvas.clipped(&extents_of(clip)),
            None => *canvas,
        };
        let group = match self.colr.base_paint(GlyphId(glyph)) {
            Some(paint) => self.painted(depth, paint, &canvas, group, visits)?,
            None => group,
        };
        let _ = visits.glyphs.pop();
        Ok(group)
    }

    /// The same of a source that is put on a backdrop by a composite mode.
    fn composite(
        self,
        depth: u8,
        paint: &'p [u8],
        canvas: &Canvas,
        group: Bounds,
        visits: &mut Visits,
    ) -> Result<Bounds, AllocError> {
        let (Some(mode), Some(_)) = (u8_at(paint, 4), u24_at(paint, 5)) else {
            return Ok(group);
        };
        let backdrop = self.painted(depth, behind(paint, 5), canvas, group, visits)?;
        let source = self.painted(depth, behind(paint, 1), canvas, Bounds::EMPTY, visits)?;
        Ok(backdrop.composed(&source, mode))
    }

    /// The transform that brings font units to the size.
    pub(crate) fn root_transform(self) -> Transform {
        let scale = &self.outlines.scale;
        Transform::IDENTITY.scaled(
            root(scale.x, scale.units_per_em),
            root(scale.y, scale.units_per_em),
        )
    }

    /// The transform that brings the size to font units.
    fn inverse_root_transform(self) -> Transform {
        let scale = &self.outlines.scale;
        Transform::IDENTITY.scaled(
            inverse_root(scale.x, scale.units_per_em),
            inverse_root(scale.y, scale.units_per_em),
        )
    }

    /// A transform after that of a paint; `None` where the paint has none, or is cut short.
    fn transform(self, paint: &'p [u8], to: &Transform) -> Option<Transform> {
        let format = u8_at(paint, 0)?;
        if format / 2 == 6 {
            u24_at(paint, 4)?;
            return Some(to.after(&self.matrix(behind(paint, 4), format == 13)));
        }
        let values = self.values(paint, format)?;
        let (x, y) = center_of(&values, format);
        let to = turned_by(&to.translated(x, y), &values, format);
        Some(to.translated(-x, -y))
    }

    /// The transform of a matrix.
    fn matrix(self, matrix: &'p [u8], varies: bool) -> Transform {
        let first = if varies {
            u32_at(matrix, 24).unwrap_or(0)
        } else {
            u32::MAX
        };
        let values = self.numbers(matrix, first);
        Transform {
            xx: values.factor(0),
            yx: values.factor(1),
            xy: values.factor(2),
            yy: values.factor(3),
            dx: values.factor(4),
            dy: values.factor(5),
        }
    }

    /// The numbers of a paint that moves, scales, turns or slants; `None` where it is none, or is cut
    /// short.
    fn values(self, paint: &'p [u8], format: u8) -> Option<PaintValues<'p>> {
        let end = 4 + 2 * value_count(format)?;
        let first = if format % 2 == 1 {
            u32_at(paint, end)?
        } else if paint.len() < end {
            return None;
        } else {
            u32::MAX
        };
        Some(self.numbers(paint, first))
    }

    /// The numbers of a paint or of a matrix, of which the first has this delta set.
    fn numbers(self, paint: &'p [u8], first: u32) -> PaintValues<'p> {
        PaintValues {
            colr: self.colr,
            coordinates: self.coordinates,
            paint,
            first,
        }
    }
}

/// The center of a paint that scales, turns or slants around one, and else the origin.
fn center_of(values: &PaintValues<'_>, format: u8) -> (f32, f32) {
    match format / 2 {
        9 | 15 => (values.distance(2), values.distance(3)),
        11 | 13 => (values.distance(1), values.distance(2)),
        _ => (0.0, 0.0),
    }
}

/// A transform after what a paint does.
fn turned_by(to: &Transform, values: &PaintValues<'_>, format: u8) -> Transform {
    match format / 2 {
        7 => to.translated(values.distance(0), values.distance(1)),
        8 | 9 => to.scaled(values.ratio(0), values.ratio(1)),
        10 | 11 => to.scaled(values.ratio(0), values.ratio(0)),
        12 | 13 => to.rotated(values.ratio(0)),
        _ => to.skewed(values.ratio(0), values.ratio(1)),
    }
}

/// How many numbers a paint of a format has; `None` where it neither moves, scales, turns nor slants.
fn value_count(format: u8) -> Option<usize> {
    match format / 2 {
        7 | 8 | 14 => Some(2),
        9 | 15 => Some(4),
        10 | 12 => Some(1),
        11 | 13 => Some(3),
        _ => None,
    }
}

/// The paint or the matrix that an offset of a paint leads to; an empty one where it leads nowhere.
fn behind(paint: &[u8], at: usize) -> &[u8] {
    match u24_at(paint, at) {
        Some(0) | None => &[],
        Some(offset) => tail(paint, offset as usize),
    }
}

/// The bounds of what is painted so far, and of a paint that fills all that is not cut off.
fn filled(paint: &[u8], canvas: &Canvas, group: Bounds) -> Bounds {
    let size = match u8_at(paint, 0) {
        Some(2) => 5,
        Some(3) => 9,
        Some(4 | 6 | 9) => 16,
        Some(8) => 12,
        _ => 20,
    };
    if paint.len() < size {
        group
    } else {
        group.united(&canvas.clip)
    }
}

/// How many font units are as long as one of the size.
fn inverse_root(size: i32, units_per_em: u16) -> f32 {
    if size == 0 {
        1.0
    } else {
        nearest_i64_to_f32(i64::from(units_per_em)) / nearest_i64_to_f32(i64::from(size))
    }
}

/// The sides of a box of a glyph.
pub(crate) fn extents_of(found: GlyphExtents) -> Extents {
    let right = found.x_bearing.saturating_add(found.width);
    let low = found.y_bearing.saturating_add(found.height);
    Extents {
        x_min: float(found.x_bearing),
        y_min: float(low),
        x_max: float(right),
        y_max: float(found.y_bearing),
    }
}
