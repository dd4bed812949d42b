//! `hb-ot-metrics.h`: measures of a whole font.

use crate::font::functions::hb_font_extents_t;
use crate::font::hb_font_t;
use crate::sfnt::{i16_at, u16_at};
use crate::types::{LEFT_TO_RIGHT, TOP_TO_BOTTOM, hb_bool_t, hb_position_t, hb_tag_t, put};
use vukhaso::Tag;
use vukhaso::internals::font_variations::ValueVariations;

/// The axis along which a measure is.
#[derive(Clone, Copy, PartialEq)]
enum Along {
    X,
    Y,
}

/// A measure: its table, the place of its number there, from which version of the table it is there, and its axis.
struct Measure {
    tag: [u8; 4],
    table: &'static [u8; 4],
    place: usize,
    along: Along,
}

const fn measure(tag: [u8; 4], table: &'static [u8; 4], place: usize, along: Along) -> Measure {
    Measure { tag, table, place, along }
}

/// The measures of the tables `OS/2`, `hhea`, `vhea` and `post` (OpenType specification, `MVAR`, "Value tags").
const MEASURES: [Measure; 26] = [
    measure(*b"vasc", b"vhea", 4, Along::X),
    measure(*b"vdsc", b"vhea", 6, Along::X),
    measure(*b"vlgp", b"vhea", 8, Along::X),
    measure(*b"hcla", b"OS/2", 74, Along::Y),
    measure(*b"hcld", b"OS/2", 76, Along::Y),
    measure(*b"hcrs", b"hhea", 18, Along::Y),
    measure(*b"hcrn", b"hhea", 20, Along::X),
    measure(*b"hcof", b"hhea", 22, Along::X),
    measure(*b"vcrs", b"vhea", 18, Along::X),
    measure(*b"vcrn", b"vhea", 20, Along::Y),
    measure(*b"vcof", b"vhea", 22, Along::Y),
    measure(*b"xhgt", b"OS/2", 86, Along::Y),
    measure(*b"cpht", b"OS/2", 88, Along::Y),
    measure(*b"sbxs", b"OS/2", 10, Along::X),
    measure(*b"sbys", b"OS/2", 12, Along::Y),
    measure(*b"sbxo", b"OS/2", 14, Along::X),
    measure(*b"sbyo", b"OS/2", 16, Along::Y),
    measure(*b"spxs", b"OS/2", 18, Along::X),
    measure(*b"spys", b"OS/2", 20, Along::Y),
    measure(*b"spxo", b"OS/2", 22, Along::X),
    measure(*b"spyo", b"OS/2", 24, Along::Y),
    measure(*b"strs", b"OS/2", 26, Along::Y),
    measure(*b"stro", b"OS/2", 28, Along::Y),
    measure(*b"unds", b"post", 10, Along::Y),
    measure(*b"undo", b"post", 8, Along::Y),
    measure(*b"Oasc", b"OS/2", 68, Along::Y),
];

/// The bit of `OS/2`'s selection that says that its typographic measures are the lines'.
const USE_TYPOGRAPHIC: u16 = 1 << 7;

/// By how much variations move a measure, in font units.
fn variation(font: &hb_font_t, tag: hb_tag_t) -> f32 {
    ValueVariations::new(font.face().table(b"MVAR")).delta(Tag(tag), &font.coordinates())
}

/// A measure in font units; `None` where the font does not have its table.
fn value(font: &hb_font_t, measure: &Measure) -> Option<f32> {
    let table = font.face().table(measure.table);
    let is_there = match measure.table {
        b"OS/2" => !table.is_empty() && (measure.place < 86 || u16_at(table, 0) >= 2),
        b"post" => !table.is_empty(),
        _ => u16_at(table, 0) == 1,
    };
    let is_unsigned = matches!(&measure.tag, b"hcla" | b"hcld");
    let number = if is_unsigned { f32::from(u16_at(table, measure.place)) } else { f32::from(i16_at(table, measure.place)) };
    is_there.then(|| number + variation(font, hb_tag_t::from_be_bytes(measure.tag)))
}

/// The number of a line's reach, by `OS/2` or by `hhea`.
fn line_value(font: &hb_font_t, tag: &[u8; 4], typographic: usize, plain: usize) -> Option<f32> {
    let (os2, hhea) = (font.face().table(b"OS/2"), font.face().table(b"hhea"));
    let is_typographic = u16_at(os2, 62) & USE_TYPOGRAPHIC != 0;
    let number = if is_typographic && !os2.is_empty() {
        i16_at(os2, typographic)
    } else if u16_at(hhea, 0) == 1 {
        i16_at(hhea, plain)
    } else {
        return None;
    };
    Some(f32::from(number) + variation(font, hb_tag_t::from_be_bytes(*tag)))
}

/// A measure of the font at its size.
pub fn position(font: &hb_font_t, tag: hb_tag_t) -> Option<hb_position_t> {
    let bytes = tag.to_be_bytes();
    let line = |typographic, plain| line_value(font, &bytes, typographic, plain);
    match &bytes {
        b"hasc" => Some(font.em_scalef_y(line(68, 4)?.abs())),
        b"hdsc" => Some(font.em_scalef_y(-line(70, 6)?.abs())),
        b"hlgp" => Some(font.em_scalef_y(line(72, 8)?)),
        b"hcrs" | b"hcrn" => slope(font, &bytes),
        _ => {
            let measure = MEASURES.iter().find(|measure| measure.tag == bytes)?;
            let number = value(font, measure)?;
            let number = match &bytes {
                b"vasc" => number.abs(),
                b"vdsc" => -number.abs(),
                _ => number,
            };
            Some(scaled(font, measure.along, number))
        }
    }
}

fn scaled(font: &hb_font_t, along: Along, number: f32) -> hb_position_t {
    if along == Along::X { font.em_scalef_x(number) } else { font.em_scalef_y(number) }
}

/// The rise and the run of the caret, which a slant makes longer so that it shows.
fn slope(font: &hb_font_t, tag: &[u8; 4]) -> Option<hb_position_t> {
    let find = |tag: &[u8; 4]| {
        let measure = MEASURES.iter().find(|measure| measure.tag == *tag)?;
        Some(scaled(font, measure.along, value(font, measure)?))
    };
    let plain = find(tag)?;
    if font.slant() == 0.0 {
        return Some(plain);
    }
    let units = font.face().units_per_em() as i32;
    let rise = i32::from(i16_at(font.face().table(b"hhea"), 18));
    let times = if rise > 0 && rise < units { (units / rise).min(256) } else { 1 };
    if tag == b"hcrs" {
        return Some(plain * times);
    }
    let leaning = (times as f32 * font.slant_across() * find(b"hcrs")? as f32).round() as i32;
    Some(plain * times + leaning)
}

/// How far lines reach, where the font says it.
pub fn line_extents(font: &hb_font_t, horizontal: bool) -> Option<hb_font_extents_t> {
    let tags: [&[u8; 4]; 3] = if horizontal { [b"hasc", b"hdsc", b"hlgp"] } else { [b"vasc", b"vdsc", b"vlgp"] };
    let find = |tag: &[u8; 4]| position(font, hb_tag_t::from_be_bytes(*tag));
    Some(hb_font_extents_t {
        ascender: find(tags[0])?,
        descender: find(tags[1])?,
        line_gap: find(tags[2])?,
        ..Default::default()
    })
}

/// The box of a letter, for measures that a font does not say.
fn letter(font: &hb_font_t, letter: char) -> Option<crate::font::functions::hb_glyph_extents_t> {
    font.glyph_extents(font.nominal_glyph(letter.into())?)
}

/// What stands for a measure that a font does not say.
fn fallback(font: &hb_font_t, tag: &[u8; 4]) -> hb_position_t {
    let (x, y) = font.scale();
    match tag {
        b"hasc" | b"hcla" => font.extents_for(LEFT_TO_RIGHT).ascender,
        b"hdsc" | b"hcld" => font.extents_for(LEFT_TO_RIGHT).descender,
        b"hlgp" => font.extents_for(LEFT_TO_RIGHT).line_gap,
        b"vasc" | b"vdsc" => font.extents_for(TOP_TO_BOTTOM).ascender,
        b"vlgp" => font.extents_for(TOP_TO_BOTTOM).line_gap,
        b"hcrs" | b"vcrs" => 1,
        b"xhgt" => letter(font, 'x').map_or(y / 2, |found| found.y_bearing),
        b"cpht" => letter(font, 'O').map_or(y * 2 / 3, |found| found.height + 2 * found.y_bearing),
        b"strs" | b"unds" => y / 18,
        b"stro" => with_fallback(font, hb_tag_t::from_be_bytes(*b"hasc")) / 2,
        b"undo" => -y / 18,
        b"sbxs" | b"spxs" => x * 10 / 12,
        b"sbys" | b"spys" => y * 10 / 12,
        b"sbyo" | b"spyo" => y / 5,
        _ => 0,
    }
}

/// A measure of the font, or what stands for it.
pub fn with_fallback(font: &hb_font_t, tag: hb_tag_t) -> hb_position_t {
    let bytes = tag.to_be_bytes();
    match position(font, tag) {
        Some(0) if matches!(&bytes, b"strs" | b"unds") => fallback(font, &bytes),
        Some(found) => found,
        None => fallback(font, &bytes),
    }
}

#[unsafe(no_mangle)]
pub unsafe extern "C" fn hb_ot_metrics_get_position(font: *mut hb_font_t, tag: hb_tag_t, place: *mut hb_position_t) -> hb_bool_t {
    // SAFETY: HarfBuzz's terms: a font that is alive, and a place or null.
    unsafe {
        match position(&*font, tag) {
            Some(found) => {
                put(place, found);
                1
            }
            None => 0,
        }
    }
}

#[unsafe(no_mangle)]
pub unsafe extern "C" fn hb_ot_metrics_get_position_with_fallback(
    font: *mut hb_font_t,
    tag: hb_tag_t,
    place: *mut hb_position_t,
) {
    // SAFETY: HarfBuzz's terms: a font that is alive, and a place.
    unsafe { put(place, with_fallback(&*font, tag)) }
}

#[unsafe(no_mangle)]
pub unsafe extern "C" fn hb_ot_metrics_get_variation(font: *mut hb_font_t, tag: hb_tag_t) -> f32 {
    // SAFETY: HarfBuzz's terms: a font that is alive.
    variation(unsafe { &*font }, tag)
}

#[unsafe(no_mangle)]
pub unsafe extern "C" fn hb_ot_metrics_get_x_variation(font: *mut hb_font_t, tag: hb_tag_t) -> hb_position_t {
    // SAFETY: HarfBuzz's terms: a font that is alive.
    let font = unsafe { &*font };
    font.em_scalef_x(variation(font, tag))
}

#[unsafe(no_mangle)]
pub unsafe extern "C" fn hb_ot_metrics_get_y_variation(font: *mut hb_font_t, tag: hb_tag_t) -> hb_position_t {
    // SAFETY: HarfBuzz's terms: a font that is alive.
    let font = unsafe { &*font };
    font.em_scalef_y(variation(font, tag))
}
