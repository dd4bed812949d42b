//! Glyphs that graphs paint (OpenType specification, "COLR - Color Table", version 1).

use crate::blob::hb_blob_destroy;
use crate::face::hb_face_t;
use crate::font::hb_font_t;
use crate::ot::color::pictures::hb_ot_color_glyph_reference_png;
use crate::sfnt::{at_32, tail, u16_at, u32_at};
use crate::types::{hb_bool_t, hb_codepoint_t};

/// A list of the table's first version, by where its offset stands; none in a table of version 0.
fn list_at(table: &[u8], place: usize) -> &[u8] {
    if u16_at(table, 0) == 0 { &[] } else { at_32(table, place) }
}

/// The glyphs that have graphs.
fn graphs(table: &[u8]) -> &[u8] {
    list_at(table, 14)
}

fn has_graph(table: &[u8], glyph: hb_codepoint_t) -> bool {
    let list = graphs(table);
    let mut records = tail(list, 4).chunks_exact(6).take(u32_at(list, 0) as usize);
    records.any(|record| u32::from(u16_at(record, 0)) == glyph)
}

/// Whether a box of the table's cuts off what is painted of a glyph.
fn has_clip(table: &[u8], glyph: hb_codepoint_t) -> bool {
    let list = list_at(table, 22);
    let mut records = tail(list, 5).chunks_exact(7).take(u32_at(list, 1) as usize);
    records.any(|record| (u32::from(u16_at(record, 0))..=u32::from(u16_at(record, 2))).contains(&glyph))
}

/// Whether HarfBuzz paints nothing of a glyph whose outline it has: of glyph 0 where graphs may paint and it has none.
fn is_blank(table: &[u8], glyph: hb_codepoint_t) -> bool {
    glyph == 0 && u16_at(table, 0) > 0 && !has_graph(table, glyph)
}

/// Whether the bounds of a glyph are those of nothing, since no picture and no box of the table has others.
pub fn is_unbounded_blank(font: &hb_font_t, glyph: hb_codepoint_t) -> bool {
    let table = font.face().table(b"COLR");
    is_blank(table, glyph) && !has_clip(table, glyph) && !has_picture(font, glyph)
}

fn has_picture(font: &hb_font_t, glyph: hb_codepoint_t) -> bool {
    // SAFETY: a font that is alive, which the call only reads.
    let found = unsafe { hb_ot_color_glyph_reference_png(std::ptr::from_ref(font).cast_mut(), glyph) };
    // SAFETY: the call gave a reference of it, which is given up here.
    unsafe {
        let is_there = !(*found).bytes().is_empty();
        hb_blob_destroy(found);
        is_there
    }
}

#[unsafe(no_mangle)]
pub unsafe extern "C" fn hb_ot_color_has_paint(face: *mut hb_face_t) -> hb_bool_t {
    // SAFETY: HarfBuzz's terms: a face that is alive.
    (u32_at(graphs(unsafe { &*face }.table(b"COLR")), 0) > 0).into()
}

#[unsafe(no_mangle)]
pub unsafe extern "C" fn hb_ot_color_glyph_has_paint(face: *mut hb_face_t, glyph: hb_codepoint_t) -> hb_bool_t {
    // SAFETY: HarfBuzz's terms: a face that is alive.
    let table = unsafe { &*face }.table(b"COLR");
    (has_graph(table, glyph) || is_blank(table, glyph)).into()
}
