//! `hb-ot-color.h`: palettes, layers, and pictures of glyphs.

pub mod graphs;
mod pictures;

use crate::blob::hb_blob_t;
use crate::face::hb_face_t;
use crate::object::Object;
use crate::sfnt::{at_32, tail, u16_at, u32_at};
use crate::types::{hb_bool_t, hb_codepoint_t, put_part};
use std::ffi::c_uint;

/// A name that is none.
const NO_NAME: c_uint = 0xFFFF;

/// A layer of a glyph, with its place in the palette.
#[repr(C)]
#[derive(Clone, Copy, Debug)]
pub struct hb_ot_color_layer_t {
    glyph: hb_codepoint_t,
    color_index: c_uint,
}

/// The palettes of a font (OpenType specification, "CPAL - Color Palette Table").
struct Palettes<'a>(&'a [u8]);

impl Palettes<'_> {
    fn count(&self) -> c_uint {
        u16_at(self.0, 4).into()
    }

    fn entry_count(&self) -> usize {
        u16_at(self.0, 2).into()
    }

    /// One of the lists of the table's first version: its offset stands behind the indexes of the palettes.
    fn list(&self, number: usize) -> &[u8] {
        if u16_at(self.0, 0) == 0 { &[] } else { at_32(self.0, 12 + 2 * self.count() as usize + 4 * number) }
    }

    /// The colours of a palette, each with blue in the highest byte.
    fn colors(&self, palette: c_uint) -> Vec<u32> {
        if palette >= self.count() {
            return Vec::new();
        }
        let first = usize::from(u16_at(self.0, 12 + 2 * palette as usize));
        let count = self.entry_count().min(usize::from(u16_at(self.0, 6)).saturating_sub(first));
        let colors = tail(at_32(self.0, 8), 4 * first);
        (0..count).map(|place| u32_at(colors, 4 * place)).collect()
    }
}

/// The palettes of a face that C passes.
///
/// # Safety
///
/// `face` is alive.
unsafe fn palettes<'a>(face: *mut hb_face_t) -> Palettes<'a> {
    // SAFETY: the caller's word.
    Palettes(unsafe { &*face }.table(b"CPAL"))
}

#[unsafe(no_mangle)]
pub unsafe extern "C" fn hb_ot_color_has_palettes(face: *mut hb_face_t) -> hb_bool_t {
    // SAFETY: HarfBuzz's terms: a face that is alive.
    (unsafe { palettes(face) }.count() > 0).into()
}

#[unsafe(no_mangle)]
pub unsafe extern "C" fn hb_ot_color_palette_get_count(face: *mut hb_face_t) -> c_uint {
    // SAFETY: HarfBuzz's terms: a face that is alive.
    unsafe { palettes(face) }.count()
}

/// The name at a place of a list.
fn name(list: &[u8], place: c_uint, count: c_uint) -> c_uint {
    if list.is_empty() || place >= count { NO_NAME } else { u16_at(list, 2 * place as usize).into() }
}

#[unsafe(no_mangle)]
pub unsafe extern "C" fn hb_ot_color_palette_get_name_id(face: *mut hb_face_t, palette: c_uint) -> c_uint {
    // SAFETY: HarfBuzz's terms: a face that is alive.
    let palettes = unsafe { palettes(face) };
    name(palettes.list(1), palette, palettes.count())
}

#[unsafe(no_mangle)]
pub unsafe extern "C" fn hb_ot_color_palette_color_get_name_id(face: *mut hb_face_t, color: c_uint) -> c_uint {
    // SAFETY: HarfBuzz's terms: a face that is alive.
    let palettes = unsafe { palettes(face) };
    name(palettes.list(2), color, palettes.entry_count() as c_uint)
}

#[unsafe(no_mangle)]
pub unsafe extern "C" fn hb_ot_color_palette_get_flags(face: *mut hb_face_t, palette: c_uint) -> c_uint {
    // SAFETY: HarfBuzz's terms: a face that is alive.
    let palettes = unsafe { palettes(face) };
    if palette < palettes.count() { u32_at(palettes.list(0), 4 * palette as usize) } else { 0 }
}

#[unsafe(no_mangle)]
pub unsafe extern "C" fn hb_ot_color_palette_get_colors(
    face: *mut hb_face_t,
    palette: c_uint,
    start: c_uint,
    count: *mut c_uint,
    colors: *mut u32,
) -> c_uint {
    // SAFETY: HarfBuzz's terms: a face that is alive, and room for `count` colours.
    unsafe { put_part(palettes(face).colors(palette).into_iter(), start, count, colors) }
}

/// The layers of a glyph (OpenType specification, "COLR - Color Table").
fn layers(table: &[u8], glyph: hb_codepoint_t) -> Vec<hb_ot_color_layer_t> {
    let records = at_32(table, 4).chunks_exact(6).take(usize::from(u16_at(table, 2)));
    let mut found = records.filter(|record| u32::from(u16_at(record, 0)) == glyph);
    let Some(record) = found.next() else {
        return Vec::new();
    };
    let first = usize::from(u16_at(record, 2));
    let count = usize::from(u16_at(record, 4)).min(usize::from(u16_at(table, 12)).saturating_sub(first));
    let rows = tail(at_32(table, 8), 4 * first);
    let layer =
        |place| hb_ot_color_layer_t { glyph: u16_at(rows, 4 * place).into(), color_index: u16_at(rows, 4 * place + 2).into() };
    (0..count).map(layer).collect()
}

#[unsafe(no_mangle)]
pub unsafe extern "C" fn hb_ot_color_has_layers(face: *mut hb_face_t) -> hb_bool_t {
    // SAFETY: HarfBuzz's terms: a face that is alive.
    (u16_at(unsafe { &*face }.table(b"COLR"), 2) > 0).into()
}

#[unsafe(no_mangle)]
pub unsafe extern "C" fn hb_ot_color_glyph_get_layers(
    face: *mut hb_face_t,
    glyph: hb_codepoint_t,
    start: c_uint,
    count: *mut c_uint,
    found: *mut hb_ot_color_layer_t,
) -> c_uint {
    // SAFETY: HarfBuzz's terms: a face that is alive, and room for `count` layers.
    unsafe { put_part(layers((*face).table(b"COLR"), glyph).into_iter(), start, count, found) }
}

#[unsafe(no_mangle)]
pub unsafe extern "C" fn hb_ot_color_has_svg(face: *mut hb_face_t) -> hb_bool_t {
    // SAFETY: HarfBuzz's terms: a face that is alive.
    (u32_at(unsafe { &*face }.table(b"SVG "), 2) != 0).into()
}

#[unsafe(no_mangle)]
pub unsafe extern "C" fn hb_ot_color_glyph_reference_svg(face: *mut hb_face_t, glyph: hb_codepoint_t) -> *mut hb_blob_t {
    // SAFETY: HarfBuzz's terms: a face that is alive.
    let face = unsafe { &*face };
    let table = face.table(b"SVG ");
    let list = at_32(table, 2);
    let mut records = tail(list, 2).chunks_exact(12).take(usize::from(u16_at(list, 0)));
    let is_of = |record: &&[u8]| (u32::from(u16_at(record, 0))..=u32::from(u16_at(record, 2))).contains(&glyph);
    match records.find(is_of) {
        Some(record) => {
            let offset = u32_at(table, 2) as usize + u32_at(record, 4) as usize;
            face.table_part(b"SVG ", offset, u32_at(record, 8) as usize)
        }
        None => hb_blob_t::empty(),
    }
}
