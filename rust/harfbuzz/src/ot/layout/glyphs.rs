//! The lookups of a table, and what they make of a glyph.

use crate::face::hb_face_t;
use crate::font::opentype::glyph_of;
use crate::ot::layout::{GPOS, GSUB, Table, numbers, table};
use crate::sfnt::{at_16, at_32, i16_at, tail, u16_at};
use crate::types::{hb_bool_t, hb_codepoint_t, put, put_part, slice};
use std::ffi::c_uint;
use vukhaso::internals::font_tables::coverage::Coverage;
use vukhaso::internals::ot_layout::Budget;
use vukhaso::internals::ot_substitution::would_substitute;

const SINGLE: u16 = 1;
const ALTERNATE: u16 = 3;
pub const EXTENSION: u16 = 7;

/// The kind and the subtable that stand behind an extension; of no kind where its format is unknown.
pub fn extended(extension: &[u8]) -> (u16, &[u8]) {
    match u16_at(extension, 0) {
        1 => (u16_at(extension, 2), at_32(extension, 4)),
        _ => (0, &[]),
    }
}

/// The subtables of a lookup, each with its kind, which stands behind the offset of an extension. `extension` is the kind of those.
pub fn subtables(table: Table<'_>, lookup: c_uint, extension: u16) -> Vec<(u16, &[u8])> {
    let lookups = table.lookups();
    if lookup >= table.lookup_count() {
        return Vec::new();
    }
    let list = at_16(lookups, 2 + 2 * lookup as usize);
    let kind = u16_at(list, 0);
    let whole = |offset: c_uint| {
        let subtable = tail(list, offset as usize);
        if kind == extension { extended(subtable) } else { (kind, subtable) }
    };
    numbers(list, 4).map(whole).collect()
}

/// The glyphs that a subtable lets stand for a glyph; `None` where it is not for that glyph.
fn alternates(kind: u16, subtable: &[u8], glyph: hb_codepoint_t) -> Option<Vec<hb_codepoint_t>> {
    let id = glyph_of(glyph)?;
    let index = Coverage::new(at_16(subtable, 2)).index(id)? as usize;
    match (kind, u16_at(subtable, 0)) {
        (SINGLE, 1) => {
            let moved = id.0.wrapping_add_signed(i16_at(subtable, 4));
            Some(vec![moved.into()])
        }
        (SINGLE, 2) => numbers(subtable, 4).nth(index).map(|found| vec![found]),
        (ALTERNATE, 1) if index < usize::from(u16_at(subtable, 4)) => Some(numbers(at_16(subtable, 6 + 2 * index), 0).collect()),
        _ => None,
    }
}

#[unsafe(no_mangle)]
pub unsafe extern "C" fn hb_ot_layout_lookup_get_glyph_alternates(
    face: *mut hb_face_t,
    lookup: c_uint,
    glyph: hb_codepoint_t,
    start: c_uint,
    count: *mut c_uint,
    glyphs: *mut hb_codepoint_t,
) -> c_uint {
    // SAFETY: HarfBuzz's terms: a face that is alive, and room for `count` glyphs.
    unsafe {
        let lists = subtables(table(face, GSUB), lookup, EXTENSION);
        let mut found = lists.into_iter().filter_map(|(kind, subtable)| alternates(kind, subtable, glyph));
        match found.find(|glyphs| !glyphs.is_empty()) {
            Some(found) => put_part(found.into_iter(), start, count, glyphs),
            None => {
                put(count, 0);
                0
            }
        }
    }
}

#[unsafe(no_mangle)]
pub unsafe extern "C" fn hb_ot_layout_lookup_would_substitute(
    face: *mut hb_face_t,
    lookup: c_uint,
    glyphs: *const hb_codepoint_t,
    count: c_uint,
    without_context: hb_bool_t,
) -> hb_bool_t {
    // SAFETY: HarfBuzz's terms: a face that is alive, and so many glyphs.
    let (face, glyphs) = unsafe { (&*face, slice(glyphs, count as usize)) };
    let Ok(lookup) = u16::try_from(lookup) else {
        return 0;
    };
    let answer = face.with_shaper(&face.plain_settings(), |face, _| {
        let list = &face.lookups.substitutions;
        let mut budget = Budget::new(64, glyphs.len());
        list.lookup(lookup).is_some_and(|lookup| would_substitute(list, lookup, glyphs, without_context != 0, &mut budget))
    });
    answer.into()
}

#[unsafe(no_mangle)]
pub unsafe extern "C" fn hb_ot_layout_has_substitution(face: *mut hb_face_t) -> hb_bool_t {
    // SAFETY: HarfBuzz's terms: a face that is alive.
    (!unsafe { table(face, GSUB) }.0.is_empty()).into()
}

#[unsafe(no_mangle)]
pub unsafe extern "C" fn hb_ot_layout_has_positioning(face: *mut hb_face_t) -> hb_bool_t {
    // SAFETY: HarfBuzz's terms: a face that is alive.
    (!unsafe { table(face, GPOS) }.0.is_empty()).into()
}
