//! Outlines of the tables `CFF ` and `CFF2` (OpenType specification, "CFF - Compact Font Format Table", "CFF2 - Compact Font
//! Format 2 Table"; The Compact Font Format Specification, Adobe Technical Note 5176).

use crate::face::hb_face_t;
use crate::outline::Pen;
use crate::outline::charstring::{Accented, Charstring, End, Offset};
use crate::outline::dict::{
    CHAR_STRINGS, CHARSET, Dict, FONT_DICT_SELECT, FONT_DICTS, Index, PRIVATE, SUBROUTINES, VARIATION_SET, VARIATION_STORE,
    at_offset,
};
use crate::sfnt::{tail, u16_at};
use vukhaso::GlyphId;
use vukhaso::internals::font_outlines::charset::string_number;
use vukhaso::internals::font_outlines::{Cff2Table, CffTable};
use vukhaso::internals::font_variations::VariationStore;
use vukhaso::internals::outline_tables::index::index_size;

/// How many bytes the count of an INDEX has.
const COUNT_SIZE: usize = 2;
const COUNT_SIZE_2: usize = 4;

struct Table<'a> {
    /// The charset and the count of glyphs are those that the package reads.
    read: CffTable<'a>,
    bytes: &'a [u8],
    top: Dict,
    char_strings: Index<'a>,
    global: Index<'a>,
}

/// Draws a glyph of the table `CFF `: whether it is there and whole.
pub fn draw(face: &hb_face_t, glyph: u16, pen: &mut Pen) -> bool {
    let table = Table::new(face.table(b"CFF "), face.glyph_count() as u16);
    table.is_some_and(|table| table.draw(glyph, None, pen).is_some())
}

impl<'a> Table<'a> {
    fn new(bytes: &'a [u8], glyph_count: u16) -> Option<Self> {
        let read = CffTable::parse(bytes, glyph_count)?;
        let behind = |index: &'a [u8]| Some(tail(index, index_size(index)?));
        let top_dicts = behind(tail(bytes, usize::from(*bytes.get(2)?)))?;
        let top = Dict::read(Index::new(top_dicts, COUNT_SIZE).item(0)?)?;
        let global = Index::new(behind(behind(top_dicts)?)?, COUNT_SIZE);
        let char_strings = Index::new(top.part(CHAR_STRINGS, bytes), COUNT_SIZE);
        Some(Table { read, bytes, top, char_strings, global })
    }

    /// Draws a glyph, as a part of an accented character where an offset is given.
    fn draw(&self, glyph: u16, part: Option<Offset>, pen: &mut Pen) -> Option<()> {
        let code = self.char_strings.item(glyph.into())?;
        let local = self.local_subroutines(glyph)?;
        let mut charstring = Charstring::new(local, self.global, part.unwrap_or_default());
        let end = charstring.run(code, pen)?;
        if let End::Accented(accented) = end {
            if part.is_some() {
                return None;
            }
            charstring.close(pen);
            self.draw_accented(accented, pen)?;
        }
        charstring.close(pen);
        Some(())
    }

    fn draw_accented(&self, accented: Accented, pen: &mut Pen) -> Option<()> {
        let (base, accent) = (self.encoded_glyph(accented.base)?, self.encoded_glyph(accented.accent)?);
        self.draw(base, Some(Offset::default()), pen)?;
        self.draw(accent, Some(accented.at), pen)
    }

    /// The glyph of a code in the standard encoding. Of the predefined charsets HarfBuzz knows ISOAdobe alone, and there the codes
    /// up to 228.
    fn encoded_glyph(&self, code: i32) -> Option<u16> {
        let charset = self.top.last::<1>(CHARSET)[0];
        if charset <= 2 && (charset != 0 || code > 228) {
            return None;
        }
        let string = standard_string(u8::try_from(code).ok()?)?;
        (1..self.read.glyph_count).find(|&glyph| string_number(self.read.charset, GlyphId(glyph)) == string)
    }

    fn local_subroutines(&self, glyph: u16) -> Option<Index<'a>> {
        if !self.read.is_cid {
            return Some(self.subroutines_of(&self.top));
        }
        let number = font_dict_of(self.top.part(FONT_DICT_SELECT, self.bytes), glyph)?;
        let font_dicts = Index::new(self.top.part(FONT_DICTS, self.bytes), COUNT_SIZE);
        Some(self.subroutines_of(&Dict::read(font_dicts.item(number)?)?))
    }

    /// The subroutines of a Private DICT; none where it is broken.
    fn subroutines_of(&self, dict: &Dict) -> Index<'a> {
        let [size, offset] = dict.last(PRIVATE);
        let private = at_offset(self.bytes, offset);
        let bytes = private.get(..usize::try_from(size).unwrap_or(0)).unwrap_or(&[]);
        let found = Dict::read(bytes).unwrap_or_default();
        Index::new(found.part(SUBROUTINES, private), COUNT_SIZE)
    }
}

/// Draws a glyph of the table `CFF2` at these coordinates: whether it is there and whole.
pub fn draw_2(face: &hb_face_t, glyph: u16, coordinates: &[i32], pen: &mut Pen) -> bool {
    drawn_2(face.table(b"CFF2"), face.glyph_count() as u16, glyph, coordinates, pen).is_some()
}

fn drawn_2(bytes: &[u8], glyph_count: u16, glyph: u16, coordinates: &[i32], pen: &mut Pen) -> Option<()> {
    Cff2Table::parse(bytes, glyph_count)?;
    let (header, top_size) = (usize::from(*bytes.get(2)?), usize::from(u16_at(bytes, 3)));
    let top = Dict::read(bytes.get(header..header + top_size)?)?;
    let number = match top.part(FONT_DICT_SELECT, bytes) {
        [] => 0,
        select => font_dict_of(select, glyph)?,
    };
    let font_dicts = Index::new(top.part(FONT_DICTS, bytes), COUNT_SIZE_2);
    let [size, offset] = Dict::read(font_dicts.item(number)?)?.last(PRIVATE);
    let private = at_offset(bytes, offset);
    // HarfBuzz draws no glyph whose Private DICT is empty.
    let found = private.get(..usize::try_from(size).ok()?).filter(|found| !found.is_empty())?;
    let dict = Dict::read(found)?;
    let local = Index::new(dict.part(SUBROUTINES, private), COUNT_SIZE_2);
    let global = Index::new(tail(bytes, header + top_size), COUNT_SIZE_2);
    let store = VariationStore::new(tail(top.part(VARIATION_STORE, bytes), 2));
    let set = u16::try_from(dict.last::<1>(VARIATION_SET)[0]).ok()?;
    let code = Index::new(top.part(CHAR_STRINGS, bytes), COUNT_SIZE_2).item(glyph.into())?;
    let mut charstring = Charstring::new(local, global, Offset::default()).varied(store, set, coordinates);
    charstring.run(code, pen)?;
    charstring.close(pen);
    Some(())
}

/// The number of a glyph's Font DICT ("FDSelect").
fn font_dict_of(select: &[u8], glyph: u16) -> Option<usize> {
    let number = match select.first()? {
        0 => *select.get(1 + usize::from(glyph))?,
        3 => {
            let count = usize::from(u16_at(select, 1));
            let row = (0..count).rev().find(|row| u16_at(select, 3 + 3 * row) <= glyph)?;
            *select.get(5 + 3 * row)?
        }
        _ => return None,
    };
    Some(number.into())
}

/// The string of a code in the standard encoding (The Compact Font Format Specification, Appendix B).
fn standard_string(code: u8) -> Option<u32> {
    let down = match code {
        32..=126 => 31,
        161..=175 => 65,
        177..=180 => 66,
        182..=189 => 67,
        191 => 68,
        193..=200 => 69,
        202..=203 => 70,
        205..=208 => 71,
        225 => 87,
        227 => 88,
        232..=235 => 92,
        241 => 97,
        245 => 100,
        248..=251 => 102,
        _ => return None,
    };
    Some(u32::from(code) - down)
}
