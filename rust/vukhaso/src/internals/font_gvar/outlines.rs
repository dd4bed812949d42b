// Written by tools/plain_rust from crates/font_gvar. Do not edit.

//! All points of a glyph at a place in the variations of a font, those of its components too.

use crate::common::GlyphId;
use crate::font_gvar::components::{Component, Components};
use crate::font_gvar::phantoms::Phantoms;
use crate::font_gvar::points::{OutlinePoint, Point};
use crate::font_gvar::simple_outlines::push_points;
use crate::font_gvar::sources::PointSource;
use crate::memory::{AllocError, Vec};
use crate::outline_tables::glyf::{OutlineKind, outline_kind};

/// How many points a glyph may have, as HarfBuzz allows.
const MOST_POINTS: usize = 200_000;

impl PointSource<'_> {
    /// Adds all points of a glyph, and behind them its phantom points.
    ///
    /// # Errors
    ///
    /// `Ok(false)` where the font has no such glyph, or its outline is broken: then some may have been
    /// added.
    pub(crate) fn push_glyph(
        self,
        glyph: GlyphId,
        depth: u32,
        steps: &mut u32,
        points: &mut Vec<OutlinePoint>,
    ) -> Result<bool, AllocError> {
        if *steps == 0 {
            return Ok(false);
        }
        *steps -= 1;
        let Some(outline) = self.sources.outline(glyph) else {
            return Ok(false);
        };
        match outline_kind(outline) {
            OutlineKind::Empty => self.push_simple(glyph, (outline, 0), points),
            OutlineKind::Simple(contours) => self.push_simple(glyph, (outline, contours), points),
            OutlineKind::Composite => {
                if depth == 0 {
                    return Ok(false);
                }
                self.push_composite(glyph, outline, depth - 1, steps, points)
            }
        }
    }

    /// Adds the points of a glyph that is not put together of others, of so many contours.
    fn push_simple(
        self,
        glyph: GlyphId,
        (outline, contours): (&[u8], u16),
        points: &mut Vec<OutlinePoint>,
    ) -> Result<bool, AllocError> {
        let start = points.len();
        if contours > 0 && !push_points(points, outline, contours)? {
            return Ok(false);
        }
        push_phantoms(points, &self.sources.phantoms(glyph, outline))?;
        self.vary_points(glyph, points.slice_mut(start.min(points.len())..))?;
        Ok(true)
    }

    /// How far each component of a glyph is moved, and behind them the phantom points of the glyph, all by
    /// its variations.
    fn offsets_of(self, glyph: GlyphId, outline: &[u8]) -> Result<Vec<OutlinePoint>, AllocError> {
        let mut offsets = Vec::new();
        let mut components = Components::new(outline);
        for _ in outline {
            let Some(component) = components.next() else {
                break;
            };
            offsets.push(OutlinePoint {
                at: component.offset,
                is_end: true,
            })?;
        }
        push_phantoms(&mut offsets, &self.sources.phantoms(glyph, outline))?;
        self.vary_points(glyph, offsets.as_mut_slice())?;
        Ok(offsets)
    }

    /// Adds the points of a glyph that is put together of others.
    fn push_composite(
        self,
        glyph: GlyphId,
        outline: &[u8],
        depth: u32,
        steps: &mut u32,
        points: &mut Vec<OutlinePoint>,
    ) -> Result<bool, AllocError> {
        let offsets = self.offsets_of(glyph, outline)?;
        self.push_components(outline, offsets.as_slice(), depth, steps, points)
    }

    /// The same, where it is known how far each component is moved, and behind that where the glyph's
    /// phantom points are.
    fn push_components(
        self,
        outline: &[u8],
        offsets: &[OutlinePoint],
        depth: u32,
        steps: &mut u32,
        points: &mut Vec<OutlinePoint>,
    ) -> Result<bool, AllocError> {
        let mut phantoms = last_phantoms(offsets);
        let mut components = Components::new(outline);
        for offset in offsets {
            let Some(component) = components.next() else {
                break;
            };
            let Some(glyph) = component.glyph else {
                return Ok(false);
            };
            let start = points.len();
            if !self.push_glyph(glyph, depth, steps, points)? {
                return Ok(false);
            }
            if component.gives_metrics() {
                phantoms = last_phantoms(points.as_slice());
            }
            place_component(points.as_mut_slice(), start, &component, offset.at);
            points.truncate(points.len().saturating_sub(4));
            if points.len() > MOST_POINTS {
                return Ok(false);
            }
        }
        push_phantoms(points, &phantoms)?;
        Ok(true)
    }
}

/// Adds phantom points.
fn push_phantoms(points: &mut Vec<OutlinePoint>, phantoms: &Phantoms) -> Result<(), AllocError> {
    for at in [phantoms.left, phantoms.right, phantoms.top, phantoms.bottom] {
        points.push(OutlinePoint { at, is_end: false })?;
    }
    Ok(())
}

/// The last four points, which are phantom points.
pub(crate) fn last_phantoms(points: &[OutlinePoint]) -> Phantoms {
    let len = points.len();
    if len < 4 {
        return Phantoms::default();
    }
    Phantoms {
        left: points[len - 4].at,
        right: points[len - 3].at,
        top: points[len - 2].at,
        bottom: points[len - 1].at,
    }
}

/// Puts the points of a component, which begin at a place, where they belong.
fn place_component(
    points: &mut [OutlinePoint],
    start: usize,
    component: &Component,
    offset: Point,
) {
    for point in points.iter_mut().skip(start) {
        point.at = if component.is_moved_first() {
            component.matrix.put(point.at.moved(offset))
        } else {
            component.matrix.put(point.at).moved(offset)
        };
    }
    let Some((before, own)) = component.anchors else {
        return;
    };
    if let Some(target) = points.get(before as usize) {
        if let Some(point) = points.get(start.saturating_add(own as usize)) {
            let by = target.at.from(point.at);
            for point in points.iter_mut().skip(start) {
                point.at = point.at.moved(by);
            }
        }
    }
}
