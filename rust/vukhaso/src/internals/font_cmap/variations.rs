// Written by tools/plain_rust from crates/font_cmap. Do not edit.

//! Variation sequences (OpenType specification, `cmap`, "Format 14").

use crate::common::GlyphId;
use crate::font_cmap::arrays::some_glyph;
use crate::font_cmap::counts::count_32;
use crate::font_tables::bisection::{KeyedRows, beside_key, row_with};
use crate::font_tables::bytes::{table_at_32, u8_at, u16_at, u24_at};
use core::cmp::Ordering;

/// What a font says of a character before a variation selector (OpenType specification, `cmap`, "Format 14").
#[derive(Clone, Copy, PartialEq, Eq, Debug)]
pub enum GlyphVariant {
    /// The font does not have the variation sequence.
    NotFound,
    /// The font has a glyph of its own for the variation sequence.
    Found(GlyphId),
    /// The character's glyph without the selector is that of the variation sequence.
    UseDefault,
}

/// The character at a place, a number of 24 bits.
fn character_at(table: &[u8], place: usize) -> Option<u32> {
    u24_at(table, place)
}

/// Rows of `size` bytes each, of which the first has its key, a number of 24 bits, at the byte `start`.
#[derive(Clone, Copy, Debug)]
struct Keys24<'a> {
    table: &'a [u8],
    start: usize,
    size: usize,
}

///
/// # Proved
///
/// ```text
/// ghost beside_of = { λ keys key row. beside_key (number_24 keys.table.now (keys.start + keys.size * row)) key }
/// ```
impl KeyedRows for Keys24<'_> {
    fn beside(&self, key: u32, row: usize) -> Option<Ordering> {
        beside_key(key_at(self.table, self.start, self.size, row), key)
    }
}

/// The key of a row of `size` bytes.
fn key_at(table: &[u8], start: usize, size: usize, row: usize) -> Option<u32> {
    let place = start.saturating_add(size.saturating_mul(row));
    if place < table.len() {
        u24_at(table, place)
    } else {
        None
    }
}

/// The variation selectors.
fn selectors(table: &[u8]) -> Keys24<'_> {
    Keys24 {
        table,
        start: 10,
        size: 11,
    }
}

/// The characters that have another glyph.
fn mappings(table: &[u8]) -> Keys24<'_> {
    Keys24 {
        table,
        start: 4,
        size: 5,
    }
}

/// Ranges of characters that keep their glyph.
#[derive(Clone, Copy, Debug)]
struct Ranges<'a>(&'a [u8]);

///
/// # Proved
///
/// ```text
/// ghost beside_of = { λ ranges character row. beside_characters ranges.0.now character row }
/// ```
impl KeyedRows for Ranges<'_> {
    fn beside(&self, character: u32, row: usize) -> Option<Ordering> {
        if row >= self.0.len() / 4 {
            return None;
        }
        let start = character_at(self.0, 4 + 4 * row)?;
        if character < start {
            return Some(Ordering::Less);
        }
        let more = u8_at(self.0, 7 + 4 * row)?;
        Some(if start + u32::from(more) < character {
            Ordering::Greater
        } else {
            Ordering::Equal
        })
    }
}

/// How many variation selectors there are.
fn selector_count(table: &[u8]) -> usize {
    count_32(table, 6)
}

/// The characters that keep their glyph before the selector of a row.
///
/// # Requires
///
/// - `row < 2 ^ 32`
fn default_characters(table: &[u8], row: usize) -> &[u8] {
    match table_at_32(table, 13 + 11 * row) {
        Some(characters) => characters,
        None => &[],
    }
}

/// The characters that have another glyph before the selector of a row.
///
/// # Requires
///
/// - `row < 2 ^ 32`
fn own_glyphs(table: &[u8], row: usize) -> &[u8] {
    match table_at_32(table, 17 + 11 * row) {
        Some(characters) => characters,
        None => &[],
    }
}

/// How many rows of `size` bytes a table has that begins with their number: none where they do not all
/// lie in it.
///
/// # Requires
///
/// - `size < 16`
fn rows_declared(table: &[u8], size: usize) -> usize {
    debug_assert!(size < 16);
    let count = count_32(table, 0);
    if 4 + size * count <= table.len() {
        count
    } else {
        0
    }
}

/// How many ranges there are.
fn range_count(characters: &[u8]) -> usize {
    rows_declared(characters, 4)
}

/// How many characters have another glyph.
fn mapped_count(characters: &[u8]) -> usize {
    rows_declared(characters, 5)
}

/// Whether a range holds the character.
fn in_ranges(ranges: &[u8], character: u32) -> bool {
    row_with(&Ranges(ranges), range_count(ranges), character).is_some()
}

/// The other glyph of a character.
fn mapped_glyph(own: &[u8], character: u32) -> Option<u16> {
    let row = row_with(&mappings(own), mapped_count(own), character)?;
    glyph_of_row(own, row)
}

/// The glyph of a row.
fn glyph_of_row(own: &[u8], row: usize) -> Option<u16> {
    if row >= own.len() / 5 {
        return None;
    }
    let number = u16_at(own, 7 + 5 * row)?;
    some_glyph(u64::from(number))
}

/// The glyph of a character before the selector of a row.
///
/// # Requires
///
/// - `row < 2 ^ 32`
fn variant_in_row(table: &[u8], character: u32, row: usize) -> GlyphVariant {
    if in_ranges(default_characters(table, row), character) {
        return GlyphVariant::UseDefault;
    }
    match mapped_glyph(own_glyphs(table, row), character) {
        Some(glyph) => GlyphVariant::Found(GlyphId(glyph)),
        None => GlyphVariant::NotFound,
    }
}

/// The glyph of a variation sequence.
pub(crate) fn glyph_variant(table: &[u8], character: u32, selector: u32) -> GlyphVariant {
    match row_with(&selectors(table), selector_count(table), selector) {
        Some(row) => variant_in_row(table, character, row),
        None => GlyphVariant::NotFound,
    }
}
