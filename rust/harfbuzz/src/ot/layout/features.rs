//! The features of a script and a language, and their lookups.

use crate::face::hb_face_t;
use crate::ot::layout::{GPOS, NONE, Table, feature_indexes, numbers, required_feature, table};
use crate::sfnt::{at_16, at_32, i16_at, tail, u16_at, u32_at};
use crate::types::{hb_bool_t, hb_codepoint_t, hb_tag_t, put, put_part, slice, tag};
use std::ffi::{c_int, c_uint};
use vukhaso::internals::font_variations::feature_variations::{substitute_of, substitutions_of};

/// A name that is none.
const NO_NAME: c_uint = 0xFFFF;
/// The place of variations that are none.
const NO_VARIATIONS: c_uint = 0xFFFF_FFFF;

#[unsafe(no_mangle)]
pub unsafe extern "C" fn hb_ot_layout_table_get_feature_tags(
    face: *mut hb_face_t,
    tag: hb_tag_t,
    start: c_uint,
    count: *mut c_uint,
    tags: *mut hb_tag_t,
) -> c_uint {
    // SAFETY: HarfBuzz's terms: a face that is alive, and room for `count` tags.
    unsafe { put_part(table(face, tag).features().tags(), start, count, tags) }
}

#[unsafe(no_mangle)]
pub unsafe extern "C" fn hb_ot_layout_language_get_required_feature(
    face: *mut hb_face_t,
    tag: hb_tag_t,
    script: c_uint,
    language: c_uint,
    index: *mut c_uint,
    feature: *mut hb_tag_t,
) -> hb_bool_t {
    // SAFETY: HarfBuzz's terms: a face that is alive, and places or null.
    unsafe {
        let table = table(face, tag);
        let found = required_feature(table.language(script, language));
        put(index, found);
        put(feature, table.features().tag(found as usize).unwrap_or(0));
        (found != NONE).into()
    }
}

#[unsafe(no_mangle)]
pub unsafe extern "C" fn hb_ot_layout_language_get_required_feature_index(
    face: *mut hb_face_t,
    tag: hb_tag_t,
    script: c_uint,
    language: c_uint,
    index: *mut c_uint,
) -> hb_bool_t {
    let feature = std::ptr::null_mut();
    // SAFETY: the same terms.
    unsafe { hb_ot_layout_language_get_required_feature(face, tag, script, language, index, feature) }
}

#[unsafe(no_mangle)]
pub unsafe extern "C" fn hb_ot_layout_language_get_feature_indexes(
    face: *mut hb_face_t,
    tag: hb_tag_t,
    script: c_uint,
    language: c_uint,
    start: c_uint,
    count: *mut c_uint,
    indexes: *mut c_uint,
) -> c_uint {
    // SAFETY: HarfBuzz's terms: a face that is alive, and room for `count` indexes.
    unsafe { put_part(feature_indexes(table(face, tag).language(script, language)), start, count, indexes) }
}

#[unsafe(no_mangle)]
pub unsafe extern "C" fn hb_ot_layout_language_get_feature_tags(
    face: *mut hb_face_t,
    tag: hb_tag_t,
    script: c_uint,
    language: c_uint,
    start: c_uint,
    count: *mut c_uint,
    tags: *mut hb_tag_t,
) -> c_uint {
    // SAFETY: HarfBuzz's terms: a face that is alive, and room for `count` tags.
    unsafe {
        let table = table(face, tag);
        let indexes = feature_indexes(table.language(script, language));
        let tags_of = indexes.map(|index| table.features().tag(index as usize).unwrap_or(0));
        put_part(tags_of, start, count, tags)
    }
}

#[unsafe(no_mangle)]
pub unsafe extern "C" fn hb_ot_layout_language_find_feature(
    face: *mut hb_face_t,
    tag: hb_tag_t,
    script: c_uint,
    language: c_uint,
    feature: hb_tag_t,
    index: *mut c_uint,
) -> hb_bool_t {
    // SAFETY: HarfBuzz's terms: a face that is alive, and a place or null.
    unsafe {
        let table = table(face, tag);
        let mut indexes = feature_indexes(table.language(script, language));
        let found = indexes.find(|index| table.features().tag(*index as usize) == Some(feature));
        put(index, found.unwrap_or(NONE));
        found.is_some().into()
    }
}

#[unsafe(no_mangle)]
pub unsafe extern "C" fn hb_ot_layout_feature_get_lookups(
    face: *mut hb_face_t,
    tag: hb_tag_t,
    feature: c_uint,
    start: c_uint,
    count: *mut c_uint,
    lookups: *mut c_uint,
) -> c_uint {
    // SAFETY: HarfBuzz's terms: a face that is alive, and room for `count` indexes.
    unsafe { put_part(numbers(table(face, tag).feature(feature), 2), start, count, lookups) }
}

#[unsafe(no_mangle)]
pub unsafe extern "C" fn hb_ot_layout_table_get_lookup_count(face: *mut hb_face_t, tag: hb_tag_t) -> c_uint {
    // SAFETY: HarfBuzz's terms: a face that is alive.
    unsafe { table(face, tag) }.lookup_count()
}

/// The substitutions of features at a place in the table of variations.
fn substitutions(table: Table<'_>, place: c_uint) -> &[u8] {
    let variations = table.variations();
    if place < u32_at(variations, 4) { at_32(variations, 12 + 8 * place as usize) } else { &[] }
}

#[unsafe(no_mangle)]
pub unsafe extern "C" fn hb_ot_layout_table_find_feature_variations(
    face: *mut hb_face_t,
    tag: hb_tag_t,
    coordinates: *const c_int,
    coordinate_count: c_uint,
    index: *mut c_uint,
) -> hb_bool_t {
    // SAFETY: HarfBuzz's terms: a face that is alive, so many coordinates, and a place.
    unsafe {
        let table = table(face, tag);
        let wanted = substitutions_of(table.0, slice(coordinates, coordinate_count as usize));
        let count = u32_at(table.variations(), 4).min(65535);
        let is_wanted = |place: &c_uint| std::ptr::eq(substitutions(table, *place).as_ptr(), wanted.as_ptr());
        let found = if wanted.is_empty() { None } else { (0..count).find(is_wanted) };
        put(index, found.unwrap_or(NO_VARIATIONS));
        found.is_some().into()
    }
}

#[unsafe(no_mangle)]
pub unsafe extern "C" fn hb_ot_layout_feature_with_variations_get_lookups(
    face: *mut hb_face_t,
    tag: hb_tag_t,
    feature: c_uint,
    variations: c_uint,
    start: c_uint,
    count: *mut c_uint,
    lookups: *mut c_uint,
) -> c_uint {
    // SAFETY: HarfBuzz's terms: a face that is alive, and room for `count` indexes.
    unsafe {
        let table = table(face, tag);
        let other = substitute_of(substitutions(table, variations), feature.min(65535) as u16);
        put_part(numbers(other.unwrap_or_else(|| table.feature(feature)), 2), start, count, lookups)
    }
}

/// The parameters of a feature whose tag begins so and ends in two digits.
fn parameters<'a>(table: Table<'a>, feature: c_uint, front: &[u8; 2]) -> Option<&'a [u8]> {
    let name = table.features().tag(feature as usize)?.to_be_bytes();
    let is_kind = name.starts_with(front) && name[2..].iter().all(u8::is_ascii_digit);
    let found = at_16(table.feature(feature), 0);
    (is_kind && !found.is_empty()).then_some(found)
}

#[unsafe(no_mangle)]
pub unsafe extern "C" fn hb_ot_layout_feature_get_name_ids(
    face: *mut hb_face_t,
    tag: hb_tag_t,
    feature: c_uint,
    label: *mut c_uint,
    tooltip: *mut c_uint,
    sample: *mut c_uint,
    named: *mut c_uint,
    first: *mut c_uint,
) -> hb_bool_t {
    // SAFETY: HarfBuzz's terms: a face that is alive, and places or null.
    let table = unsafe { table(face, tag) };
    let set = parameters(table, feature, b"ss");
    let variant = parameters(table, feature, b"cv");
    let number = |at| variant.map_or(NO_NAME, |found| u16_at(found, at).into());
    // SAFETY: as above.
    unsafe {
        put(label, set.map_or_else(|| number(2), |found| u16_at(found, 2).into()));
        put(tooltip, number(4));
        put(sample, number(6));
        put(named, variant.map_or(0, |found| u16_at(found, 8).into()));
        put(first, number(10));
    }
    (set.is_some() || variant.is_some()).into()
}

#[unsafe(no_mangle)]
pub unsafe extern "C" fn hb_ot_layout_feature_get_characters(
    face: *mut hb_face_t,
    tag: hb_tag_t,
    feature: c_uint,
    start: c_uint,
    count: *mut c_uint,
    characters: *mut hb_codepoint_t,
) -> c_uint {
    // SAFETY: HarfBuzz's terms: a face that is alive, and room for `count` characters.
    unsafe {
        let found = parameters(table(face, tag), feature, b"cv").unwrap_or(&[]);
        let list = tail(found, 14);
        let length = usize::from(u16_at(found, 12)).min(list.len() / 3);
        let character = |place: usize| u32::from(u16_at(list, 3 * place)) << 8 | u32::from(list[3 * place + 2]);
        put_part((0..length).map(character), start, count, characters)
    }
}

/// The parameters of the feature `size`, where they make sense.
fn size_parameters(table: Table<'_>) -> Option<&[u8]> {
    let features = table.features();
    let is_valid = |found: &&[u8]| {
        let [design, family, name, first, last] = [0, 2, 4, 6, 8].map(|at| u16_at(found, at));
        let is_plain = (family, name, first, last) == (0, 0, 0, 0);
        design != 0 && (is_plain || (first <= design && design <= last && (256..=32767).contains(&name)))
    };
    let sizes = (0..features.count).filter(|index| features.tag(*index) == Some(tag(b"size")));
    sizes.map(|index| at_16(features.table(index), 0)).find(is_valid)
}

#[unsafe(no_mangle)]
pub unsafe extern "C" fn hb_ot_layout_get_size_params(
    face: *mut hb_face_t,
    design: *mut c_uint,
    family: *mut c_uint,
    name: *mut c_uint,
    first: *mut c_uint,
    last: *mut c_uint,
) -> hb_bool_t {
    // SAFETY: HarfBuzz's terms: a face that is alive, and places or null.
    unsafe {
        let found = size_parameters(table(face, GPOS));
        let number = |at| found.map_or(0, |found| c_uint::from(u16_at(found, at)));
        put(design, number(0));
        put(family, number(2));
        put(name, if found.is_some() { number(4) } else { NO_NAME });
        put(first, number(6));
        put(last, number(8));
        found.is_some().into()
    }
}

#[unsafe(no_mangle)]
pub unsafe extern "C" fn hb_ot_layout_lookup_get_optical_bound(
    font: *mut crate::font::hb_font_t,
    lookup: c_uint,
    direction: crate::types::hb_direction_t,
    glyph: hb_codepoint_t,
) -> crate::types::hb_position_t {
    // SAFETY: HarfBuzz's terms: a font that is alive.
    let font = unsafe { &*font };
    let table = Table::of(font.face(), GPOS);
    let lists = crate::ot::layout::glyphs::subtables(table, lookup, 9);
    let value = |subtable: &[u8]| {
        let coverage = vukhaso::internals::font_tables::coverage::Coverage::new(at_16(subtable, 2));
        let index = coverage.index(crate::font::opentype::glyph_of(glyph)?)? as usize;
        let (format, fields) = (u16_at(subtable, 4), u16_at(subtable, 4));
        let size = 2 * fields.count_ones() as usize;
        let record = match u16_at(subtable, 0) {
            1 => tail(subtable, 6),
            2 => tail(subtable, 8 + size * index),
            _ => return None,
        };
        // The fields stand in the order of the bits: placements across and upwards, then advances.
        let field = |bit: u16| {
            let place = (format & (bit - 1)).count_ones() as usize;
            if fields & bit == 0 { 0 } else { i32::from(i16_at(record, 2 * place)) }
        };
        Some(match direction {
            crate::types::LEFT_TO_RIGHT => font.em_scale_x(field(1)),
            crate::types::RIGHT_TO_LEFT => font.em_scale_x(field(4) - field(1)),
            crate::types::TOP_TO_BOTTOM => font.em_scale_y(field(2)),
            _ => font.em_scale_y(field(8) - field(2)),
        })
    };
    lists.into_iter().filter(|(kind, _)| *kind == 1).find_map(|(_, subtable)| value(subtable)).unwrap_or(0)
}
