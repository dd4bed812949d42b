//! Unicode's data, as the proved shaper has it.

use crate::common::scripts::UNKNOWN;
use crate::types::{hb_codepoint_t, hb_script_t};
use std::ffi::c_uint;
use std::sync::OnceLock;
use vukhaso::CharExt;
use vukhaso::internals::glyph::Mirrors;
use vukhaso::unicode_tables as tables;

pub const OTHER_LETTER: c_uint = 7;
const UNASSIGNED: c_uint = 2;
const SURROGATE: c_uint = 4;

/// The characters of which the combining class is not 0, in order.
fn classes() -> &'static [(char, u8)] {
    static CLASSES: OnceLock<Vec<(char, u8)>> = OnceLock::new();
    CLASSES.get_or_init(|| tables::combining_classes().map_or_else(|_| Vec::new(), |rows| rows.as_slice().to_vec()))
}

pub fn combining_class(c: hb_codepoint_t) -> c_uint {
    let place = classes().binary_search_by_key(&c, |(c, _)| u32::from(*c));
    place.map_or(0, |place| classes()[place].1.into())
}

pub fn general_category(c: hb_codepoint_t) -> c_uint {
    match char::from_u32(c) {
        Some(c) => c.general_category() as c_uint,
        None if (0xD800..0xE000).contains(&c) => SURROGATE,
        None => UNASSIGNED,
    }
}

pub fn mirroring(c: hb_codepoint_t) -> hb_codepoint_t {
    static MIRRORS: OnceLock<Option<Mirrors<'static>>> = OnceLock::new();
    let mirrors = MIRRORS.get_or_init(tables::mirrors).as_ref();
    let mirror = |c: char| mirrors.and_then(|mirrors| c.mirrored(mirrors));
    char::from_u32(c).and_then(mirror).map_or(c, u32::from)
}

pub fn script(c: hb_codepoint_t) -> hb_script_t {
    char::from_u32(c).map_or(UNKNOWN, |c| c.script().tag().as_u32())
}

pub fn compose(a: hb_codepoint_t, b: hb_codepoint_t) -> Option<hb_codepoint_t> {
    tables::compose(char::from_u32(a)?, char::from_u32(b)?).map(u32::from)
}

pub fn decompose(ab: hb_codepoint_t) -> Option<(hb_codepoint_t, hb_codepoint_t)> {
    let (a, b) = tables::decompose(char::from_u32(ab)?)?;
    Some((a.into(), b.map_or(0, u32::from)))
}
