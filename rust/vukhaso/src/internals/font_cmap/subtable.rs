// Written by tools/plain_rust from crates/font_cmap. Do not edit.

//! A subtable by its format.

use crate::font_cmap::arrays::{byte_glyph, trimmed_array_glyph, trimmed_table_glyph};
use crate::font_cmap::groups::{first_groups_glyphs, groups_glyph};
use crate::font_cmap::runs::FIRST_COUNT;
use crate::font_cmap::segment_lists::Segments;
use crate::font_cmap::segments::{first_segments_glyphs, segments_glyph};
use crate::font_tables::bytes::u16_at;

/// A subtable that is asked for many codes: its format is read once, and so is where it has its lists if that is format 4.
#[derive(Clone, Copy, Debug)]
pub(crate) struct Subtable<'a> {
    /// The table, as one of segments.
    pub(crate) segments: Segments<'a>,
    format: Option<u16>,
}

impl<'a> Subtable<'a> {
    /// The subtable in these bytes, which begin with its format.
    pub(crate) fn new(table: &'a [u8]) -> Self {
        let format = u16_at(table, 0);
        let segments = Segments::new(table);
        Subtable { segments, format }
    }
}

/// The glyph that a subtable gives to a code.
#[inline(always)]
pub(crate) fn subtable_glyph(subtable: &Subtable<'_>, code: u32) -> Option<u16> {
    let table = subtable.segments.table;
    let format = subtable.format?;
    match format {
        0 => byte_glyph(table, code),
        4 => segments_glyph(&subtable.segments, code),
        6 => trimmed_table_glyph(table, code),
        10 => trimmed_array_glyph(table, code),
        12 | 13 => groups_glyph(table, format, code),
        _ => None,
    }
}

/// The numbers of the glyphs that a subtable gives to the first codes; 0 where it gives none.
pub(crate) fn first_subtable_glyphs(subtable: &Subtable<'_>) -> [u16; FIRST_COUNT] {
    match subtable.format {
        Some(4) => first_segments_glyphs(&subtable.segments),
        Some(format @ (12 | 13)) => first_groups_glyphs(subtable.segments.table, format),
        _ => glyphs_one_by_one(subtable),
    }
}

/// The same, each asked for.
fn glyphs_one_by_one(subtable: &Subtable<'_>) -> [u16; FIRST_COUNT] {
    let mut glyphs = [0; FIRST_COUNT];
    for code in 0..FIRST_COUNT {
        glyphs[code] = number_of_code(subtable, code as u32);
    }
    glyphs
}

/// The number of the glyph that a subtable gives to a code; 0 where it gives none.
fn number_of_code(subtable: &Subtable<'_>, code: u32) -> u16 {
    subtable_glyph(subtable, code).unwrap_or(0)
}
