// Written by tools/plain_rust from crates/font_outlines. Do not edit.

//! Outlines and names of the table `CFF ` (OpenType specification, "CFF - Compact Font Format Table"; The Compact Font
//! Format Specification, Adobe Technical Note 5176).

use crate::common::GlyphId;
use crate::font_outlines::charset::{predefined_charset, string_number, string_of};
use crate::font_outlines::charstring::{Accented, Drawing, Subroutines, draw_charstring};
use crate::font_outlines::extents::path_box;
use crate::font_outlines::path::Bounds;
use crate::font_outlines::standard_encoding::{encoded_string, glyph_of_string};
use crate::font_tables::bytes::{part, tail, u8_at};
use crate::glyph::GlyphExtents;
use crate::outline_tables::Dict;
use crate::outline_tables::font_dicts::font_dict_of;
use crate::outline_tables::index::{index_count, index_item, index_size};

/// The table of a font with CFF outlines.
///
/// # Proved
///
/// ```text
/// ghost has_charstrings: { index_count char_strings.now ≡ glyph_count }
/// ```
#[derive(Clone, Copy, Debug)]
pub struct CffTable<'a> {
    /// The charset, which names the glyphs.
    pub charset: &'a [u8],
    /// The strings of the font, as an INDEX.
    pub strings: &'a [u8],
    /// Whether the font is CID-keyed: its glyphs have no names.
    pub is_cid: bool,
    /// How many glyphs the font has.
    pub glyph_count: u16,
    /// The whole table.
    table: &'a [u8],
    /// The charstrings, as an INDEX.
    char_strings: &'a [u8],
    /// The subroutines of the whole font, as an INDEX.
    global_subroutines: &'a [u8],
    /// What the Top DICT says.
    top: Dict,
    /// The subroutines of the font's one Private DICT, as an INDEX; none where the font is CID-keyed.
    local_subroutines: &'a [u8],
}

impl<'a> CffTable<'a> {
    /// The table in these bytes, of a font with so many glyphs; `None` where it is broken, or has another
    /// number of glyphs.
    ///
    /// # Proved
    ///
    /// ```text
    /// ensures glyphs { IfSome result (λ cff. cff.glyph_count ≡ glyph_count) }
    /// ensures table { IfSome result (λ cff. cff.table.now ≡ table.now) }
    /// ensures top { IfSome result (λ cff. top_dict table.now ≡ Some cff.top) }
    /// ensures keyed { IfSome result (λ cff. cff.is_cid ≡ cff.top.is_cid) }
    /// ensures strings { IfSome result (λ cff. font_strings table.now ≡ Some cff.strings.now) }
    /// ensures subroutines { IfSome result (λ cff. behind cff.strings.now ≡ Some cff.global_subroutines.now) }
    /// ensures charstrings { IfSome result (λ cff. at_offset table.now cff.top.char_strings ≡ Some cff.char_strings.now) }
    /// ```
    #[inline]
    pub fn parse(table: &'a [u8], glyph_count: u16) -> Option<Self> {
        if u8_at(table, 0)? != 1 {
            return None;
        }
        let top_dicts = behind(tail(table, usize::from(u8_at(table, 2)?)))?;
        let strings = behind(top_dicts)?;
        let global_subroutines = behind(strings)?;
        let top = Dict::read(index_item(top_dicts, 0)?)?;
        let char_strings = at_offset(table, top.char_strings)?;
        if index_count(char_strings) != glyph_count {
            return None;
        }
        Some(CffTable {
            charset: charset_at(table, top)?,
            strings,
            is_cid: top.is_cid,
            glyph_count,
            table,
            char_strings,
            global_subroutines,
            top,
            local_subroutines: local_subroutines(table, top),
        })
    }

    /// The name of a glyph, which is ASCII by the specification; `None` where the font has no such glyph,
    /// or is CID-keyed.
    ///
    /// # Proved
    ///
    /// ```text
    /// ensures { option_copied result ≡ glyph_name self.now.charset.now self.now.strings.now self.now.is_cid self.now.glyph_count glyph.0 }
    /// ```
    #[inline]
    pub fn glyph_name(&self, glyph: GlyphId) -> Option<&'a [u8]> {
        if self.is_cid || glyph.0 >= self.glyph_count {
            return None;
        }
        let name = string_of(self.strings, string_number(self.charset, glyph))?;
        if name.is_empty() { None } else { Some(name) }
    }

    /// The box around the path of a glyph and the points that control its curves, in font units; `None`
    /// where the font has no such glyph, or its charstring is broken.
    ///
    /// # Proved
    ///
    /// ```text
    /// ensures { IsSome result → glyph.0 < self.now.glyph_count }
    /// ```
    #[inline]
    pub fn glyph_extents(&self, glyph: GlyphId) -> Option<GlyphExtents> {
        Some(path_box(self.path_bounds(glyph)?))
    }

    /// The same box before it is rounded, in 65,536ths of a font unit.
    ///
    /// # Proved
    ///
    /// ```text
    /// ensures { IsSome result → glyph.0 < self.now.glyph_count }
    /// ```
    #[inline]
    pub fn path_bounds(&self, glyph: GlyphId) -> Option<Bounds> {
        let drawing = self.drawing(glyph)?;
        let bounds = drawing.path.bounds;
        match drawing.accented {
            Some(accented) => Some(bounds.merged(self.accented_bounds(accented)?)),
            None => Some(bounds),
        }
    }

    /// The bounds of an accented character.
    fn accented_bounds(&self, accented: Accented) -> Option<Bounds> {
        let base = self.part_bounds(accented.base)?;
        let accent = self.part_bounds(accented.accent)?;
        Some(base.merged(accent.moved(accented.accent_at)))
    }

    /// The bounds of a part of an accented character, which is none itself.
    fn part_bounds(&self, code: i32) -> Option<Bounds> {
        let drawing = self.drawing(self.encoded_glyph(code)?)?;
        match drawing.accented {
            Some(_) => None,
            None => Some(drawing.path.bounds),
        }
    }

    /// The glyph of a code in the standard encoding. Of the predefined charsets HarfBuzz knows ISOAdobe
    /// alone, and there the codes up to 228.
    fn encoded_glyph(&self, code: i32) -> Option<GlyphId> {
        let code = u8::try_from(code).ok()?;
        if self.top.charset > 2 || (self.top.charset == 0 && code <= 228) {
            glyph_of_string(self.charset, encoded_string(code)?, self.glyph_count)
        } else {
            None
        }
    }

    /// What the charstring of a glyph draws.
    fn drawing(&self, glyph: GlyphId) -> Option<Drawing> {
        let charstring = index_item(self.char_strings, u32::from(glyph.0))?;
        let subroutines = Subroutines {
            local: self.local_subroutines(glyph)?,
            global: self.global_subroutines,
        };
        draw_charstring(charstring, subroutines)
    }

    /// The local subroutines of a glyph.
    fn local_subroutines(&self, glyph: GlyphId) -> Option<&'a [u8]> {
        if self.is_cid {
            let select = at_offset(self.table, self.top.font_dict_select)?;
            let number = font_dict_of(select, glyph)?;
            let font_dicts = at_offset(self.table, self.top.font_dicts)?;
            let font_dict = Dict::read(index_item(font_dicts, u32::from(number))?)?;
            Some(local_subroutines(self.table, font_dict))
        } else {
            Some(self.local_subroutines)
        }
    }
}

/// What follows an INDEX.
fn behind(index: &[u8]) -> Option<&[u8]> {
    Some(tail(index, index_size(index)?))
}

/// The table from an offset on; `None` where the offset is 0 or below.
pub(crate) fn at_offset(table: &[u8], offset: i32) -> Option<&[u8]> {
    if offset > 0 {
        Some(tail(table, offset.unsigned_abs() as usize))
    } else {
        None
    }
}

/// The charset of a font.
fn charset_at(table: &[u8], top: Dict) -> Option<&[u8]> {
    if top.charset > 2 {
        at_offset(table, top.charset)
    } else {
        predefined_charset(u32::try_from(top.charset).ok()?)
    }
}

/// The subroutines of a Private DICT; none where the DICT says of none, or is broken.
fn local_subroutines(table: &[u8], dict: Dict) -> &[u8] {
    let private = at_offset(table, dict.private_offset).unwrap_or(&[]);
    let size = usize::try_from(dict.private_size).unwrap_or(0);
    match Dict::read(part(private, 0, size)) {
        Some(found) => at_offset(private, found.subroutines).unwrap_or(&[]),
        None => &[],
    }
}
