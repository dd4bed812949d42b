//! Tags and directions, and the parts of colours.

use crate::types::{DIRECTION_INVALID, bytes, hb_direction_t, hb_tag_t, is_valid};
use std::ffi::{c_char, c_int};
use std::ptr::null;

/// The tag of the first four bytes of a text, with spaces behind where there are fewer; none of no text.
pub fn tag_of(text: &[u8]) -> hb_tag_t {
    let end = text.iter().position(|byte| *byte == 0).unwrap_or(text.len()).min(4);
    if end == 0 {
        return 0;
    }
    let mut tag = [b' '; 4];
    tag[..end].copy_from_slice(&text[..end]);
    u32::from_be_bytes(tag)
}

#[unsafe(no_mangle)]
pub unsafe extern "C" fn hb_tag_from_string(text: *const c_char, length: c_int) -> hb_tag_t {
    // SAFETY: HarfBuzz's terms: a text of this length, or with a zero behind it.
    tag_of(unsafe { bytes(text, length) })
}

#[unsafe(no_mangle)]
pub unsafe extern "C" fn hb_tag_to_string(tag: hb_tag_t, text: *mut c_char) {
    // SAFETY: HarfBuzz's terms: room for four bytes.
    unsafe { text.cast::<[u8; 4]>().write(tag.to_be_bytes()) }
}

#[unsafe(no_mangle)]
pub unsafe extern "C" fn hb_direction_from_string(text: *const c_char, length: c_int) -> hb_direction_t {
    // SAFETY: HarfBuzz's terms: a text of this length, or with a zero behind it.
    let text = unsafe { bytes(text, length) };
    match text.first().map(u8::to_ascii_lowercase) {
        Some(b'l') => crate::types::LEFT_TO_RIGHT,
        Some(b'r') => crate::types::RIGHT_TO_LEFT,
        Some(b't') => crate::types::TOP_TO_BOTTOM,
        Some(b'b') => crate::types::BOTTOM_TO_TOP,
        _ => DIRECTION_INVALID,
    }
}

#[unsafe(no_mangle)]
pub extern "C" fn hb_direction_to_string(direction: hb_direction_t) -> *const c_char {
    if !is_valid(direction) {
        return c"invalid".as_ptr();
    }
    [c"ltr", c"rtl", c"ttb", c"btt"].get(direction as usize - 4).map_or(null(), |name| name.as_ptr())
}

#[unsafe(no_mangle)]
pub extern "C" fn hb_color_get_alpha(color: u32) -> u8 {
    color.to_be_bytes()[3]
}

#[unsafe(no_mangle)]
pub extern "C" fn hb_color_get_red(color: u32) -> u8 {
    color.to_be_bytes()[2]
}

#[unsafe(no_mangle)]
pub extern "C" fn hb_color_get_green(color: u32) -> u8 {
    color.to_be_bytes()[1]
}

#[unsafe(no_mangle)]
pub extern "C" fn hb_color_get_blue(color: u32) -> u8 {
    color.to_be_bytes()[0]
}
