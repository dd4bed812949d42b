//! Scripts.

use crate::common::tags::tag_of;
use crate::types::{DIRECTION_INVALID, LEFT_TO_RIGHT, RIGHT_TO_LEFT, bytes, hb_direction_t, hb_script_t, hb_tag_t, tag};
use std::ffi::{c_char, c_int};
use vukhaso::{Direction, Script, Tag};

pub const COMMON: hb_script_t = tag(b"Zyyy");
pub const INHERITED: hb_script_t = tag(b"Zinh");
pub const UNKNOWN: hb_script_t = tag(b"Zzzz");

/// Whether a script is that of letters of its own.
pub fn is_of_text(script: hb_script_t) -> bool {
    !matches!(script, COMMON | INHERITED | UNKNOWN)
}

/// A script as the shaper takes it.
pub fn shaper_script(script: hb_script_t) -> Option<Script> {
    Script::from_iso15924_tag(Tag(if script == 0 { UNKNOWN } else { script }))
}

#[unsafe(no_mangle)]
pub extern "C" fn hb_script_from_iso15924_tag(tag: hb_tag_t) -> hb_script_t {
    Script::from_iso15924_tag(Tag(tag)).map_or(0, |script| script.tag().as_u32())
}

#[unsafe(no_mangle)]
pub unsafe extern "C" fn hb_script_from_string(text: *const c_char, length: c_int) -> hb_script_t {
    // SAFETY: HarfBuzz's terms: a text of this length, or with a zero behind it.
    hb_script_from_iso15924_tag(tag_of(unsafe { bytes(text, length) }))
}

#[unsafe(no_mangle)]
pub extern "C" fn hb_script_to_iso15924_tag(script: hb_script_t) -> hb_tag_t {
    script
}

#[unsafe(no_mangle)]
pub extern "C" fn hb_script_get_horizontal_direction(script: hb_script_t) -> hb_direction_t {
    let Some(script) = Script::from_iso15924_tag(Tag(script)) else {
        return LEFT_TO_RIGHT;
    };
    match Direction::from_script(script) {
        Some(Direction::RightToLeft) => RIGHT_TO_LEFT,
        None | Some(Direction::Invalid) => DIRECTION_INVALID,
        Some(_) => LEFT_TO_RIGHT,
    }
}
