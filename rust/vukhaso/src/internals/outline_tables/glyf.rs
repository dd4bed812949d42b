// Written by tools/plain_rust from crates/outline_tables. Do not edit.

//! Outlines of the tables `glyf` and `loca` (OpenType specification, `glyf` and `loca`).

use crate::common::GlyphId;
use crate::font_tables::bytes::{i16_at, part, u16_at, u32_at};
use crate::glyph::GlyphExtents;

/// The tables of a font with TrueType outlines.
#[derive(Clone, Copy, Debug)]
pub struct GlyfTables<'a> {
    /// The outlines of all glyphs.
    pub glyf: &'a [u8],
    /// The places in `glyf` where outlines begin.
    pub loca: &'a [u8],
    /// Whether the offsets in `loca` have 32 bits, as `head` says.
    pub has_long_offsets: bool,
    /// How many glyphs the font has, as `maxp` says.
    pub glyph_count: u16,
}

impl GlyfTables<'_> {
    /// The box that the header of a glyph's outline names, in font units; `None` where the font has no such
    /// glyph.
    ///
    /// The left side is the glyph's left side bearing, where it has one, as rasterizers move the outline
    /// there. A glyph without contours has an empty box.
    ///
    /// # Proved
    ///
    /// ```text
    /// ensures { result ≡ glyf_extents self.now.glyf.now self.now.loca.now self.now.has_long_offsets self.now.glyph_count glyph.0 left_side_bearing }
    /// ```
    #[inline]
    pub fn glyph_extents(
        &self,
        glyph: GlyphId,
        left_side_bearing: Option<i16>,
    ) -> Option<GlyphExtents> {
        if glyph.0 < self.glyph_count {
            let outline = outline(self.glyf, self.loca, self.has_long_offsets, glyph)?;
            Some(outline_box(outline, left_side_bearing))
        } else {
            None
        }
    }
}

/// The bytes of a glyph's outline, which are none where the glyph has no outline; `None` where `loca`
/// does not reach the glyph.
///
/// # Proved
///
/// ```text
/// ensures { option_copied result ≡ outline glyf.now loca.now has_long_offsets glyph.0 }
/// ```
#[inline]
pub fn outline<'a>(
    glyf: &'a [u8],
    loca: &[u8],
    has_long_offsets: bool,
    glyph: GlyphId,
) -> Option<&'a [u8]> {
    let start = location(loca, has_long_offsets, u32::from(glyph.0))?;
    let end = location(loca, has_long_offsets, u32::from(glyph.0) + 1)?;
    Some(between(glyf, start as usize, end as usize))
}

/// The place in `glyf` that the offset of a number in `loca` names.
fn location(loca: &[u8], has_long_offsets: bool, number: u32) -> Option<u32> {
    if has_long_offsets {
        u32_at(loca, 4 * number as usize)
    } else {
        u16_at(loca, 2 * number as usize).map(|pairs| 2 * u32::from(pairs))
    }
}

/// The bytes from a place up to another one, which are none unless the places are in order and lie in
/// the table.
///
/// # Proved
///
/// ```text
/// ensures { result.now ≡ between table.now start end }
/// ```
#[inline]
pub fn between(table: &[u8], start: usize, end: usize) -> &[u8] {
    if start <= end && end <= table.len() {
        part(table, start, end - start)
    } else {
        &[]
    }
}

/// The box of an outline.
fn outline_box(outline: &[u8], left_side_bearing: Option<i16>) -> GlyphExtents {
    match u16_at(outline, 0) {
        Some(1..) => header_box(outline, left_side_bearing).unwrap_or(NO_BOX),
        _ => NO_BOX,
    }
}

/// The box of a glyph without contours.
pub const NO_BOX: GlyphExtents = GlyphExtents {
    x_bearing: 0,
    y_bearing: 0,
    width: 0,
    height: 0,
};

/// The box that the header of an outline names, if the header is whole.
fn header_box(header: &[u8], left_side_bearing: Option<i16>) -> Option<GlyphExtents> {
    let x_min = i16_at(header, 2)?;
    let y_min = i16_at(header, 4)?;
    let x_max = i16_at(header, 6)?;
    let y_max = i16_at(header, 8)?;
    Some(box_between(
        left_side_bearing,
        (x_min, y_min),
        (x_max, y_max),
    ))
}

/// The box between two corners, each with its x and y.
fn box_between(left_side_bearing: Option<i16>, one: (i16, i16), other: (i16, i16)) -> GlyphExtents {
    let (left, right) = (one.0.min(other.0), one.0.max(other.0));
    let (bottom, top) = (one.1.min(other.1), one.1.max(other.1));
    GlyphExtents {
        x_bearing: i32::from(left_side_bearing.unwrap_or(left)),
        y_bearing: i32::from(top),
        width: distance(left, right),
        height: distance(top, bottom),
    }
}

/// How far it is from one coordinate to another.
fn distance(from: i16, to: i16) -> i32 {
    i32::from(to) - i32::from(from)
}

/// How many bytes the header of an outline has.
pub const HEADER_SIZE: usize = 10;

/// What an outline is.
#[derive(Clone, Copy, Debug)]
pub enum OutlineKind {
    /// It has no points.
    Empty,
    /// It has so many contours.
    Simple(u16),
    /// It is put together of other glyphs.
    Composite,
}

/// What an outline is, by its number of contours.
///
/// # Proved
///
/// ```text
/// ensures { result ≡ outline_kind outline.now }
/// ```
#[inline]
pub fn outline_kind(outline: &[u8]) -> OutlineKind {
    match u16_at(outline, 0).unwrap_or(0) {
        0 => OutlineKind::Empty,
        count if count < 0x8000 => OutlineKind::Simple(count),
        _ => OutlineKind::Composite,
    }
}
