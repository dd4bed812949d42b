// Written by tools/plain_rust from crates/font_colors. Do not edit.

//! The paints and the layers of glyphs in `COLR` (OpenType specification, "BaseGlyphList table" and "Base Glyph records").

use crate::common::GlyphId;
use crate::font_colors::colr::{ColrTable, delta_set, part_at};
use crate::font_tables::bisection::row_with;
use crate::font_tables::bytes::{tail, u16_at, u32_at};
use crate::font_tables::rows::Keys16;
use crate::font_variations::VariationStore;
use crate::font_variations::index_map::IndexMap;

/// Layers of a glyph, each of which is a glyph that is filled with one colour.
#[derive(Clone, Copy, Debug)]
pub(crate) struct Layers {
    /// The number of the first layer.
    pub first: u16,
    /// How many layers there are.
    pub count: u16,
}

impl<'a> ColrTable<'a> {
    /// The paint of a glyph; `None` where it has none.
    pub(crate) fn base_paint(&self, glyph: GlyphId) -> Option<&'a [u8]> {
        let list = part_at(self.table, 14);
        let count = u32_at(list, 0)?;
        let record = record_of(list, 4, count, glyph)?;
        Some(part_of_list(list, u32_at(record, 2)?))
    }

    /// The paint of a layer; an empty one where there is none.
    pub(crate) fn layer(&self, number: u32) -> &'a [u8] {
        let list = part_at(self.table, 18);
        if number >= u32_at(list, 0).unwrap_or(0) {
            return &[];
        }
        let offset = u32_at(list, 4 + 4 * number as usize).unwrap_or(0);
        part_of_list(list, offset)
    }

    /// The layers of a glyph that are filled with one colour each; `None` where it has none.
    pub(crate) fn layers(&self, glyph: GlyphId) -> Option<Layers> {
        let start = u32_at(self.table, 4)? as usize;
        let count = u32::from(u16_at(self.table, 2)?);
        let record = record_of(self.table, start, count, glyph)?;
        let first = u16_at(record, 2)?;
        let declared = u16_at(record, 4)?;
        let all = u16_at(self.table, 12)?;
        Some(Layers {
            first,
            count: declared.min(all.saturating_sub(first)),
        })
    }

    /// The glyph of a layer that is filled with one colour.
    pub(crate) fn layer_glyph(&self, number: u16) -> Option<GlyphId> {
        let layers = tail(self.table, u32_at(self.table, 8)? as usize);
        Some(GlyphId(u16_at(layers, 4 * usize::from(number))?))
    }

    /// The delta of a number at these coordinates, by its place behind the one with the first delta set.
    pub(crate) fn delta(&self, first: u32, place: u8, coordinates: &[i32]) -> f32 {
        if coordinates.is_empty() {
            return 0.0;
        }
        let index = IndexMap::new(part_at(self.table, 26)).index_of(delta_set(first, place));
        VariationStore::new(part_at(self.table, 30)).delta(index, coordinates)
    }
}

/// What an offset of a list leads to; nothing where it is 0.
fn part_of_list(list: &[u8], offset: u32) -> &[u8] {
    if offset == 0 {
        &[]
    } else {
        tail(list, offset as usize)
    }
}

/// The record of a glyph among so many of six bytes each, which are bisected, from a place of a table
/// on.
///
/// # Requires
///
/// - `start < 2 ^ 32`
fn record_of(table: &[u8], start: usize, count: u32, glyph: GlyphId) -> Option<&[u8]> {
    let keys = Keys16 {
        table,
        start,
        size: 6,
    };
    let row = row_with(&keys, count as usize, u32::from(glyph.0))?;
    Some(tail(table, start + 6 * row))
}
