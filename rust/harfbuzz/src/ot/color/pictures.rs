//! Pictures of glyphs in the format PNG (OpenType specification, "sbix", "CBLC" and "CBDT").

use crate::blob::{hb_blob_destroy, hb_blob_t};
use crate::face::hb_face_t;
use crate::font::hb_font_t;
use crate::object::Object;
use crate::sfnt::{tail, u16_at, u32_at};
use crate::types::{hb_bool_t, hb_codepoint_t};

/// How often a picture may name another glyph's in its place.
const MOST_COPIES: usize = 8;

/// The best of some sizes for a wanted one: the least that is not smaller, or else the largest.
fn best(sizes: impl Iterator<Item = u32>, wanted: u32) -> Option<usize> {
    let mut chosen: Option<(usize, u32)> = None;
    for (place, size) in sizes.enumerate() {
        let is_better = chosen.is_none_or(|(_, before)| (wanted <= size && size < before) || (wanted > before && size > before));
        if is_better {
            chosen = Some((place, size));
        }
    }
    chosen.map(|(place, _)| place)
}

fn wanted_size(font: &hb_font_t) -> u32 {
    match font.ppem() {
        (0, 0) => 1 << 30,
        (x, y) => x.max(y),
    }
}

/// A glyph's picture in `sbix`: where it stands in the table, and how long it is.
fn sbix_picture(font: &hb_font_t, glyph: hb_codepoint_t) -> Option<(usize, usize)> {
    let table = font.face().table(b"sbix");
    let count = u32_at(table, 4) as usize;
    let offsets = || (0..count.min(table.len() / 4)).map(|place| u32_at(table, 8 + 4 * place) as usize);
    let place = best(offsets().map(|offset| u16_at(table, offset).into()), wanted_size(font))?;
    let start = offsets().nth(place)?;
    let strike = tail(table, start);
    let mut glyph = glyph;
    for _ in 0..=MOST_COPIES {
        if glyph >= font.face().glyph_count() {
            return None;
        }
        let offset = |number: u32| u32_at(strike, 4 + 4 * number as usize) as usize;
        let (from, to) = (offset(glyph), offset(glyph + 1));
        if to <= from + 8 || to > strike.len() {
            return None;
        }
        match &strike[from + 4..from + 8] {
            b"png " => return Some((start + from + 8, to - from - 8)),
            b"dupe" => glyph = u16_at(strike, from + 8).into(),
            _ => return None,
        }
    }
    None
}

/// The pictures of a range of glyphs: where their list stands, and the glyphs.
fn cblc_range(strike: &[u8], table: &[u8], glyph: hb_codepoint_t) -> Option<(usize, u32)> {
    let lists = u32_at(strike, 0) as usize;
    let records = tail(table, lists).chunks_exact(8).take(u32_at(strike, 8) as usize);
    for record in records {
        let first = u32::from(u16_at(record, 0));
        if (first..=u32::from(u16_at(record, 2))).contains(&glyph) {
            return Some((lists + u32_at(record, 4) as usize, glyph - first));
        }
    }
    None
}

/// A glyph's picture in `CBDT`: where it stands in the table, and how long it is.
fn cbdt_picture(font: &hb_font_t, glyph: hb_codepoint_t) -> Option<(usize, usize)> {
    let (places, pictures) = (font.face().table(b"CBLC"), font.face().table(b"CBDT"));
    let strikes = || tail(places, 8).chunks_exact(48).take(u32_at(places, 4) as usize);
    let place = best(strikes().map(|strike| strike[44].max(strike[45]).into()), wanted_size(font))?;
    let strike = strikes().nth(place)?;
    let (at, number) = cblc_range(strike, places, glyph)?;
    let list = tail(places, at);
    let number = number as usize;
    let (from, to) = match u16_at(list, 0) {
        1 => (u32_at(list, 8 + 4 * number) as usize, u32_at(list, 12 + 4 * number) as usize),
        3 => (usize::from(u16_at(list, 8 + 2 * number)), usize::from(u16_at(list, 10 + 2 * number))),
        _ => return None,
    };
    if to <= from {
        return None;
    }
    let start = u32_at(list, 4) as usize + from;
    // Before the picture stand its measures, and how long it is.
    let measures = match u16_at(list, 2) {
        17 => 5,
        18 => 8,
        19 => 0,
        _ => return None,
    };
    Some((start + measures + 4, u32_at(pictures, start + measures) as usize))
}

#[unsafe(no_mangle)]
pub unsafe extern "C" fn hb_ot_color_has_png(face: *mut hb_face_t) -> hb_bool_t {
    // SAFETY: HarfBuzz's terms: a face that is alive.
    let face = unsafe { &*face };
    (!face.table(b"CBDT").is_empty() || !face.table(b"sbix").is_empty()).into()
}

#[unsafe(no_mangle)]
pub unsafe extern "C" fn hb_ot_color_glyph_reference_png(font: *mut hb_font_t, glyph: hb_codepoint_t) -> *mut hb_blob_t {
    // SAFETY: HarfBuzz's terms: a font that is alive.
    let font = unsafe { &*font };
    if let Some((offset, length)) = sbix_picture(font, glyph) {
        let found = font.face().table_part(b"sbix", offset, length);
        // SAFETY: the blob was just made.
        if !unsafe { &*found }.bytes().is_empty() {
            return found;
        }
        // SAFETY: as above, and this is its only reference.
        unsafe { hb_blob_destroy(found) };
    }
    match cbdt_picture(font, glyph) {
        Some((offset, length)) => font.face().table_part(b"CBDT", offset, length),
        None => hb_blob_t::empty(),
    }
}
