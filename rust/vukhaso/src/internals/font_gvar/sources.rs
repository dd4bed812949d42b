// Written by tools/plain_rust from crates/font_gvar. Do not edit.

//! The tables that the outlines of glyphs and their variations are in.

use crate::common::GlyphId;
use crate::font_gvar::gvar::GlyphVariations;
use crate::font_gvar::phantoms::Phantoms;
use crate::font_gvar::points::Point;
use crate::font_tables::bytes::i16_at;
use crate::font_tables::metrics::Metrics;
use crate::font_variations::rounding::float;
use crate::outline_tables::glyf::{GlyfTables, HEADER_SIZE, outline};

/// The tables of a font's outlines, with those of advances and side bearings.
#[derive(Clone, Copy, Debug)]
pub struct GlyphSources<'a> {
    /// The outlines.
    pub outlines: GlyfTables<'a>,
    /// Their variations.
    pub variations: GlyphVariations<'a>,
    /// Advances and side bearings in horizontal lines.
    pub horizontal: Metrics<'a>,
    /// Advances and side bearings in vertical lines.
    pub vertical: Metrics<'a>,
}

impl<'a> GlyphSources<'a> {
    /// The outline of a glyph, as it stands in the table `glyf`: no bytes where the glyph has none. `None`
    /// where the font has no such glyph.
    pub(crate) fn outline(&self, glyph: GlyphId) -> Option<&'a [u8]> {
        let tables = &self.outlines;
        if glyph.0 >= tables.glyph_count {
            return None;
        }
        let outline = outline(tables.glyf, tables.loca, tables.has_long_offsets, glyph)?;
        Some(if outline.len() < HEADER_SIZE {
            &[]
        } else {
            outline
        })
    }

    /// The phantom points of a glyph with this outline, where nothing varies.
    pub(crate) fn phantoms(&self, glyph: GlyphId, outline: &[u8]) -> Phantoms {
        let left = left_edge(&self.horizontal, glyph, outline);
        let top = top_edge(&self.vertical, glyph, outline);
        Phantoms {
            left: across(left),
            right: across(left + i32::from(self.horizontal.advance(glyph))),
            top: upwards(top),
            bottom: upwards(top - i32::from(self.vertical.advance(glyph))),
        }
    }
}

/// What the points of glyphs are read from.
#[derive(Clone, Copy, Debug)]
pub(crate) struct PointSource<'a> {
    /// The tables.
    pub sources: &'a GlyphSources<'a>,
    /// The place in the variations.
    pub coordinates: &'a [i32],
}

/// Where a glyph's origin lies in horizontal lines, in font units.
fn left_edge(metrics: &Metrics<'_>, glyph: GlyphId, outline: &[u8]) -> i32 {
    let x_min = i16_at(outline, 2).unwrap_or(0);
    match metrics.side_bearing(glyph) {
        Some(bearing) => i32::from(x_min) - i32::from(bearing),
        None => 0,
    }
}

/// Where a glyph's origin lies in vertical lines, in font units.
fn top_edge(metrics: &Metrics<'_>, glyph: GlyphId, outline: &[u8]) -> i32 {
    let y_max = i16_at(outline, 8).unwrap_or(0);
    i32::from(y_max) + i32::from(metrics.side_bearing(glyph).unwrap_or(0))
}

/// A point on the line of the origin.
fn across(x: i32) -> Point {
    Point {
        x: float(x),
        y: 0.0,
    }
}

/// A point above or below the origin.
fn upwards(y: i32) -> Point {
    Point {
        x: 0.0,
        y: float(y),
    }
}
