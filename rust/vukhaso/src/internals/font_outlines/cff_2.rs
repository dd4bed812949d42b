// Written by tools/plain_rust from crates/font_outlines. Do not edit.

//! Outlines of the table `CFF2` (OpenType specification, "CFF2 - Compact Font Format 2 Table").

use crate::common::GlyphId;
use crate::font_outlines::cff::at_offset;
use crate::font_outlines::charstring_2::{Setting2, draw_charstring_2};
use crate::font_outlines::extents::path_box;
use crate::font_outlines::path::Bounds;
use crate::font_tables::bytes::{part, tail, u8_at, u16_at};
use crate::font_variations::VariationStore;
use crate::glyph::GlyphExtents;
use crate::outline_tables::Dict;
use crate::outline_tables::font_dicts::font_dict_of;
use crate::outline_tables::index_2::{count_2, item_2};

/// The table of a font with CFF2 outlines.
///
/// # Proved
///
/// ```text
/// ghost has_charstrings: { count_2 char_strings.now ≡ glyph_count }
/// ```
#[derive(Clone, Copy, Debug)]
pub struct Cff2Table<'a> {
    /// How many glyphs the font has.
    pub glyph_count: u16,
    /// The whole table.
    table: &'a [u8],
    /// The charstrings, as an INDEX.
    char_strings: &'a [u8],
    /// The subroutines of the whole font, as an INDEX.
    global_subroutines: &'a [u8],
    /// What the Top DICT says.
    top: Dict,
    /// The deltas of the font.
    store: VariationStore<'a>,
}

impl<'a> Cff2Table<'a> {
    /// The table in these bytes, of a font with so many glyphs; `None` where it is broken, or has another
    /// number of glyphs.
    ///
    /// # Proved
    ///
    /// ```text
    /// ensures glyphs { IfSome result (λ cff. cff.glyph_count ≡ glyph_count) }
    /// ensures table { IfSome result (λ cff. cff.table.now ≡ table.now) }
    /// ensures top { IfSome result (λ cff. top_dict_2 table.now ≡ Some cff.top) }
    /// ensures charstrings { IfSome result (λ cff. at_offset table.now cff.top.char_strings ≡ Some cff.char_strings.now) }
    /// ensures subroutines { IfSome result (λ cff. global_subroutines_2 table.now ≡ Some cff.global_subroutines.now) }
    /// ensures store { IfSome result (λ cff. cff.store.table.now ≡ store_2 table.now cff.top.variation_store) }
    /// ```
    pub fn parse(table: &'a [u8], glyph_count: u16) -> Option<Self> {
        if u8_at(table, 0)? != 2 {
            return None;
        }
        let header = usize::from(u8_at(table, 2)?);
        let top_size = usize::from(u16_at(table, 3)?);
        let top = Dict::read(part(table, header, top_size))?;
        let char_strings = at_offset(table, top.char_strings)?;
        if count_2(char_strings) != u32::from(glyph_count) {
            return None;
        }
        let store = at_offset(table, top.variation_store).unwrap_or(&[]);
        Some(Cff2Table {
            glyph_count,
            table,
            char_strings,
            global_subroutines: tail(table, header + top_size),
            top,
            store: VariationStore::new(tail(store, 2)),
        })
    }

    /// The box around the path of a glyph and the points that control its curves, in font units, at these
    /// coordinates; `None` where the font has no such glyph, or its charstring is broken.
    ///
    /// # Proved
    ///
    /// ```text
    /// ensures { IsSome result → glyph.0 < self.now.glyph_count }
    /// ```
    #[inline]
    pub fn glyph_extents(&self, glyph: GlyphId, coordinates: &[i32]) -> Option<GlyphExtents> {
        Some(path_box(self.path_bounds(glyph, coordinates)?))
    }

    /// The same box before it is rounded, in 65,536ths of a font unit.
    ///
    /// # Proved
    ///
    /// ```text
    /// ensures { IsSome result → glyph.0 < self.now.glyph_count }
    /// ```
    #[inline]
    pub fn path_bounds(&self, glyph: GlyphId, coordinates: &[i32]) -> Option<Bounds> {
        let charstring = item_2(self.char_strings, u32::from(glyph.0))?;
        let private = self.private_of(glyph)?;
        let dict = Dict::read(private.bytes)?;
        let setting = Setting2 {
            local: at_offset(private.behind, dict.subroutines).unwrap_or(&[]),
            global: self.global_subroutines,
            store: self.store,
            coordinates,
        };
        let set = u16::try_from(dict.variation_set).ok()?;
        let path = draw_charstring_2(charstring, &setting, set)?;
        Some(path.bounds)
    }

    /// The Private DICT of a glyph. `None` where it is empty: HarfBuzz has no bounds of such a glyph.
    fn private_of(&self, glyph: GlyphId) -> Option<Private<'a>> {
        let font_dicts = at_offset(self.table, self.top.font_dicts)?;
        let number = match at_offset(self.table, self.top.font_dict_select) {
            Some(select) => font_dict_of(select, glyph)?,
            None => 0,
        };
        let dict = Dict::read(item_2(font_dicts, u32::from(number))?)?;
        let behind = at_offset(self.table, dict.private_offset).unwrap_or(&[]);
        let bytes = part(behind, 0, usize::try_from(dict.private_size).unwrap_or(0));
        if bytes.is_empty() {
            return None;
        }
        Some(Private { bytes, behind })
    }
}

/// A Private DICT.
#[derive(Clone, Copy, Debug)]
struct Private<'a> {
    /// Its bytes.
    bytes: &'a [u8],
    /// The table from its first byte on, from which the offset of its subroutines counts.
    behind: &'a [u8],
}
