//! `hb-ot-math.h`: what a font says for setting mathematics (OpenType specification, "MATH - The Mathematical Typesetting Table").

use crate::face::hb_face_t;
use crate::font::hb_font_t;
use crate::font::opentype::glyph_of;
use crate::ot::layout::correction;
use crate::sfnt::{at_16, i16_at, tail, u16_at, u32_at};
use crate::types::{hb_bool_t, hb_codepoint_t, hb_direction_t, hb_position_t, is_horizontal, put, put_part};
use std::ffi::c_uint;
use vukhaso::internals::font_tables::coverage::Coverage;
use vukhaso::internals::font_variations::VariationStore;

/// A kerning value, with the height up to which it holds.
#[repr(C)]
#[derive(Clone, Copy, Debug)]
pub struct hb_ot_math_kern_entry_t {
    max_correction_height: hb_position_t,
    kern_value: hb_position_t,
}

/// A glyph of another size.
#[repr(C)]
#[derive(Clone, Copy, Debug)]
pub struct hb_ot_math_glyph_variant_t {
    glyph: hb_codepoint_t,
    advance: hb_position_t,
}

/// A part of a glyph that is put together.
#[repr(C)]
#[derive(Clone, Copy, Debug)]
pub struct hb_ot_math_glyph_part_t {
    glyph: hb_codepoint_t,
    start_connector_length: hb_position_t,
    end_connector_length: hb_position_t,
    full_advance: hb_position_t,
    flags: c_uint,
}

/// The first constant that has a device table beside it, and the last.
const FIRST_VALUE: u32 = 4;
const LAST_VALUE: u32 = 54;
/// The constants that run across.
const ACROSS: [u32; 4] = [17, 41, 53, 54];
const RAISE_PERCENT: u32 = 55;

/// The table of a font, with the font's size.
struct Math<'a> {
    font: &'a hb_font_t,
    table: &'a [u8],
}

impl<'a> Math<'a> {
    /// # Safety
    ///
    /// `font` is alive.
    unsafe fn of(font: *mut hb_font_t) -> Self {
        // SAFETY: the caller's word.
        let font = unsafe { &*font };
        let table = font.face().table(b"MATH");
        Math { font, table: if u16_at(table, 0) == 1 { table } else { &[] } }
    }

    /// A value with its device table, whose offset is from the start of a table.
    fn value(&self, table: &[u8], at: usize, across: bool) -> hb_position_t {
        let number = i32::from(i16_at(table, at));
        let scaled = if across { self.font.em_scale_x(number) } else { self.font.em_scale_y(number) };
        let store = VariationStore::of_gdef(self.font.face().table(b"GDEF"));
        scaled + correction(self.font, table, at + 2, across, &store)
    }

    /// A length along a line.
    fn length(&self, number: u16, direction: hb_direction_t) -> hb_position_t {
        let number = number.into();
        if is_horizontal(direction) { self.font.em_scale_x(number) } else { self.font.em_scale_y(number) }
    }

    fn constant(&self, constant: u32) -> hb_position_t {
        let table = at_16(self.table, 4);
        match constant {
            0 | 1 => i16_at(table, 2 * constant as usize).into(),
            2 | 3 => self.font.em_scale_y(u16_at(table, 2 * constant as usize).into()),
            FIRST_VALUE..=LAST_VALUE => self.value(table, 8 + 4 * (constant - FIRST_VALUE) as usize, ACROSS.contains(&constant)),
            RAISE_PERCENT => i16_at(table, 8 + 4 * (LAST_VALUE - FIRST_VALUE + 1) as usize).into(),
            _ => 0,
        }
    }

    /// One of the tables of single glyphs.
    fn of_glyphs(&self, number: usize) -> &'a [u8] {
        at_16(at_16(self.table, 6), 2 * number)
    }

    /// A glyph's place in a coverage, whose offset is at a place of a table.
    fn index(&self, table: &[u8], at: usize, glyph: hb_codepoint_t) -> Option<usize> {
        Coverage::new(at_16(table, at)).index(glyph_of(glyph)?).map(|index| index as usize)
    }

    /// The kerning at a corner of a glyph.
    fn kern(&self, glyph: hb_codepoint_t, corner: c_uint) -> &'a [u8] {
        let table = self.of_glyphs(3);
        match self.index(table, 0, glyph) {
            Some(index) if index < usize::from(u16_at(table, 2)) && corner < 4 => {
                at_16(table, 4 + 8 * index + 2 * corner as usize)
            }
            _ => &[],
        }
    }

    /// How a glyph is made larger.
    fn construction(&self, glyph: hb_codepoint_t, direction: hb_direction_t) -> &'a [u8] {
        let table = at_16(self.table, 8);
        let vertical = !is_horizontal(direction);
        let (vertical_count, horizontal_count) = (usize::from(u16_at(table, 6)), usize::from(u16_at(table, 8)));
        let (coverage, count) = if vertical { (2, vertical_count) } else { (4, horizontal_count) };
        match self.index(table, coverage, glyph) {
            Some(index) if index < count => at_16(table, 10 + 2 * if vertical { index } else { vertical_count + index }),
            _ => &[],
        }
    }
}

/// The entries of a kerning table: the height and the value of each.
fn kern_entries(math: &Math<'_>, table: &[u8]) -> Vec<hb_ot_math_kern_entry_t> {
    if table.is_empty() {
        return Vec::new();
    }
    let count = usize::from(u16_at(table, 0));
    let entry = |place: usize| hb_ot_math_kern_entry_t {
        max_correction_height: if place == count { i32::MAX } else { math.value(table, 2 + 4 * place, false) },
        kern_value: math.value(table, 2 + 4 * (count + place), true),
    };
    (0..=count).map(entry).collect()
}

#[unsafe(no_mangle)]
pub unsafe extern "C" fn hb_ot_math_has_data(face: *mut hb_face_t) -> hb_bool_t {
    // SAFETY: HarfBuzz's terms: a face that is alive.
    (u32_at(unsafe { &*face }.table(b"MATH"), 0) != 0).into()
}

#[unsafe(no_mangle)]
pub unsafe extern "C" fn hb_ot_math_get_constant(font: *mut hb_font_t, constant: c_uint) -> hb_position_t {
    // SAFETY: HarfBuzz's terms: a font that is alive.
    unsafe { Math::of(font) }.constant(constant)
}

#[unsafe(no_mangle)]
pub unsafe extern "C" fn hb_ot_math_get_glyph_italics_correction(font: *mut hb_font_t, glyph: hb_codepoint_t) -> hb_position_t {
    // SAFETY: HarfBuzz's terms: a font that is alive.
    let math = unsafe { Math::of(font) };
    let table = math.of_glyphs(0);
    math.index(table, 0, glyph).map_or(0, |index| math.value(table, 4 + 4 * index, true))
}

#[unsafe(no_mangle)]
pub unsafe extern "C" fn hb_ot_math_get_glyph_top_accent_attachment(
    font: *mut hb_font_t,
    glyph: hb_codepoint_t,
) -> hb_position_t {
    // SAFETY: HarfBuzz's terms: a font that is alive.
    let math = unsafe { Math::of(font) };
    let table = math.of_glyphs(1);
    match math.index(table, 0, glyph) {
        Some(index) => math.value(table, 4 + 4 * index, true),
        None => math.font.h_advance(glyph) / 2,
    }
}

#[unsafe(no_mangle)]
pub unsafe extern "C" fn hb_ot_math_is_glyph_extended_shape(face: *mut hb_face_t, glyph: hb_codepoint_t) -> hb_bool_t {
    // SAFETY: HarfBuzz's terms: a face that is alive.
    let table = at_16(unsafe { &*face }.table(b"MATH"), 6);
    let coverage = Coverage::new(at_16(table, 4));
    glyph_of(glyph).is_some_and(|glyph| coverage.index(glyph).is_some()).into()
}

#[unsafe(no_mangle)]
pub unsafe extern "C" fn hb_ot_math_get_glyph_kerning(
    font: *mut hb_font_t,
    glyph: hb_codepoint_t,
    corner: c_uint,
    height: hb_position_t,
) -> hb_position_t {
    // SAFETY: HarfBuzz's terms: a font that is alive.
    let math = unsafe { Math::of(font) };
    let entries = kern_entries(&math, math.kern(glyph, corner));
    let is_downwards = math.font.scale().1 < 0;
    let is_below = |limit: i32| if is_downwards { height > limit } else { height < limit };
    let found = entries.iter().find(|entry| entry.max_correction_height == i32::MAX || is_below(entry.max_correction_height));
    found.map_or(0, |entry| entry.kern_value)
}

#[unsafe(no_mangle)]
pub unsafe extern "C" fn hb_ot_math_get_glyph_kernings(
    font: *mut hb_font_t,
    glyph: hb_codepoint_t,
    corner: c_uint,
    start: c_uint,
    count: *mut c_uint,
    entries: *mut hb_ot_math_kern_entry_t,
) -> c_uint {
    // SAFETY: HarfBuzz's terms: a font that is alive, and room for `count` entries.
    unsafe {
        let math = Math::of(font);
        put_part(kern_entries(&math, math.kern(glyph, corner)).into_iter(), start, count, entries)
    }
}

#[unsafe(no_mangle)]
pub unsafe extern "C" fn hb_ot_math_get_glyph_variants(
    font: *mut hb_font_t,
    glyph: hb_codepoint_t,
    direction: hb_direction_t,
    start: c_uint,
    count: *mut c_uint,
    variants: *mut hb_ot_math_glyph_variant_t,
) -> c_uint {
    // SAFETY: HarfBuzz's terms: a font that is alive, and room for `count` variants.
    unsafe {
        let math = Math::of(font);
        let table = math.construction(glyph, direction);
        let rows = tail(table, 4).chunks_exact(4).take(usize::from(u16_at(table, 2)));
        let variant = |row: &[u8]| hb_ot_math_glyph_variant_t {
            glyph: u16_at(row, 0).into(),
            advance: math.length(u16_at(row, 2), direction),
        };
        put_part(rows.map(variant), start, count, variants)
    }
}

#[unsafe(no_mangle)]
pub unsafe extern "C" fn hb_ot_math_get_min_connector_overlap(font: *mut hb_font_t, direction: hb_direction_t) -> hb_position_t {
    // SAFETY: HarfBuzz's terms: a font that is alive.
    let math = unsafe { Math::of(font) };
    math.length(u16_at(at_16(math.table, 8), 0), direction)
}

#[unsafe(no_mangle)]
pub unsafe extern "C" fn hb_ot_math_get_glyph_assembly(
    font: *mut hb_font_t,
    glyph: hb_codepoint_t,
    direction: hb_direction_t,
    start: c_uint,
    count: *mut c_uint,
    parts: *mut hb_ot_math_glyph_part_t,
    italics: *mut hb_position_t,
) -> c_uint {
    // SAFETY: HarfBuzz's terms: a font that is alive, room for `count` parts, and a place or null.
    unsafe {
        let math = Math::of(font);
        let table = at_16(math.construction(glyph, direction), 0);
        let rows = tail(table, 6).chunks_exact(10).take(usize::from(u16_at(table, 4)));
        let part = |row: &[u8]| hb_ot_math_glyph_part_t {
            glyph: u16_at(row, 0).into(),
            start_connector_length: math.length(u16_at(row, 2), direction),
            end_connector_length: math.length(u16_at(row, 4), direction),
            full_advance: math.length(u16_at(row, 6), direction),
            flags: (u16_at(row, 8) & 1).into(),
        };
        put(italics, math.value(table, 0, true));
        put_part(rows.map(part), start, count, parts)
    }
}
