// Written by tools/plain_rust from crates/font_colors. Do not edit.

//! Boxes that glyphs drawn in colours are clipped to (OpenType specification, "COLR - Color Table", "ClipList table").

use crate::common::GlyphId;
use crate::font_tables::bytes::{i16_at, table_at_32, tail, u8_at, u16_at, u24_at, u32_at};
use crate::font_tables::rows::{Keys16, first_row, rises, rows_within};
use crate::font_variations::VariationStore;
use crate::font_variations::index_map::{DeltaSetIndex, IndexMap};
use crate::font_variations::rounding::{float, rounded};
use crate::glyph::GlyphExtents;
use crate::numbers::saturating_f32_to_i32;
use crate::outline_tables::glyf::NO_BOX;

/// The table of a font with glyphs that are drawn in colours, as far as it says boxes of them.
///
/// # Proved
///
/// ```text
/// ghost is_list: { clips.now ≡ clip_list table.now }
/// ghost counts: { count ≡ clip_count clips.now }
/// ghost rise: { IsTrue are_rising → Rises (last_glyph clips.now) count }
/// ```
#[derive(Clone, Copy, Debug)]
pub struct ColrTable<'a> {
    /// The bytes of the table.
    pub table: &'a [u8],
    clips: &'a [u8],
    count: u32,
    are_rising: bool,
}

impl<'a> ColrTable<'a> {
    /// The table in these bytes.
    ///
    /// # Proved
    ///
    /// ```text
    /// ensures { result.table.now ≡ table.now }
    /// ```
    #[inline]
    pub fn new(table: &'a [u8]) -> Self {
        let clips = clip_list(table);
        let count = clip_count(clips);
        ColrTable {
            table,
            clips,
            count,
            are_rising: rises(&last_glyphs(clips), count as usize),
        }
    }

    /// The box that a glyph is clipped to, in font units, at these coordinates; `None` where the font says
    /// none.
    ///
    /// # Proved
    ///
    /// ```text
    /// ensures { result ≡ clip_box self.now.table.now glyph.0 coordinates.now }
    /// ```
    #[inline]
    pub fn clip_box(&self, glyph: GlyphId, coordinates: &[i32]) -> Option<GlyphExtents> {
        let row = clip_of(self.clips, self.count, self.are_rising, glyph)?;
        box_of(clip_bytes(self.clips, row), self.table, coordinates)
    }
}

/// The table that an offset of `COLR` leads to; an empty one where there is none.
pub(crate) fn part_at(colr: &[u8], at: usize) -> &[u8] {
    if u16_at(colr, 0).unwrap_or(0) > 0 {
        table_at_32(colr, at).unwrap_or(&[])
    } else {
        &[]
    }
}

/// The list of boxes.
fn clip_list(colr: &[u8]) -> &[u8] {
    part_at(colr, 22)
}

/// How many records of the list lie in it.
fn clip_count(list: &[u8]) -> u32 {
    let declared = u32_at(list, 1).unwrap_or(0);
    rows_within(list, 5, 7, declared as usize) as u32
}

/// The last glyphs of the records.
fn last_glyphs(list: &[u8]) -> Keys16<'_> {
    Keys16 {
        table: list,
        start: 7,
        size: 7,
    }
}

/// The record of a glyph, by its number.
///
/// # Requires
///
/// - `counts: count ≡ clip_count list.now`
/// - `rise: IsTrue are_rising → Rises (last_glyph list.now) count`
fn clip_of(list: &[u8], count: u32, are_rising: bool, glyph: GlyphId) -> Option<u32> {
    let rows = last_glyphs(list);
    let row = first_row(&rows, count as usize, u32::from(glyph.0), are_rising)?;
    if u16_at(list, 5 + 7 * row)? <= glyph.0 {
        Some(row as u32)
    } else {
        None
    }
}

/// The bytes of a record's box.
fn clip_bytes(list: &[u8], row: u32) -> &[u8] {
    let offset = u24_at(list, 9 + 7 * row as usize).unwrap_or(0);
    if offset == 0 {
        &[]
    } else {
        tail(list, offset as usize)
    }
}

/// A box by its bytes: an empty one where its format is unknown, and none where it is cut short.
fn box_of(bytes: &[u8], colr: &[u8], coordinates: &[i32]) -> Option<GlyphExtents> {
    match u8_at(bytes, 0) {
        Some(1 | 2) => box_of_sides(bytes, colr, coordinates),
        _ => Some(NO_BOX),
    }
}

/// A box of the two formats, by its sides.
fn box_of_sides(bytes: &[u8], colr: &[u8], coordinates: &[i32]) -> Option<GlyphExtents> {
    let left = side(bytes, colr, coordinates, 0)?;
    let low = side(bytes, colr, coordinates, 1)?;
    let right = side(bytes, colr, coordinates, 2)?;
    let top = side(bytes, colr, coordinates, 3)?;
    Some(GlyphExtents {
        x_bearing: left,
        y_bearing: top,
        width: distance(left, right),
        height: distance(top, low),
    })
}

/// How far it is from one side to another.
fn distance(from: i32, to: i32) -> i32 {
    to.saturating_sub(from)
}

/// A side of a box, by its number.
fn side(bytes: &[u8], colr: &[u8], coordinates: &[i32], corner: u8) -> Option<i32> {
    let at = 1 + 2 * usize::from(corner);
    if varies(bytes, coordinates) {
        let first = u32_at(bytes, 9)?;
        let number = i32::from(i16_at(bytes, at)?);
        Some(moved(number, delta_set(first, corner), colr, coordinates))
    } else {
        i16_at(bytes, at).map(i32::from)
    }
}

/// Whether a box varies at these coordinates.
fn varies(bytes: &[u8], coordinates: &[i32]) -> bool {
    matches!(u8_at(bytes, 0), Some(2)) && !coordinates.is_empty()
}

/// The number of a side in the map of delta sets, by that of the first one; the number of no variation
/// stays.
pub(crate) fn delta_set(first: u32, corner: u8) -> u32 {
    if first == u32::MAX {
        first
    } else {
        first.wrapping_add(u32::from(corner))
    }
}

/// A number with its delta.
fn moved(number: i32, set: DeltaSetIndex, colr: &[u8], coordinates: &[i32]) -> i32 {
    let index = IndexMap::new(part_at(colr, 26)).index_of(set);
    let delta = VariationStore::new(part_at(colr, 30)).delta(index, coordinates);
    saturating_f32_to_i32(float(number) + float(rounded(delta)))
}
