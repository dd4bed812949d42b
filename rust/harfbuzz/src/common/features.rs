//! Features for ranges of a text.

use crate::types::{bytes, hb_bool_t, hb_tag_t, put, put_text};
use std::ffi::{c_char, c_int, c_uint};
use vukhaso::{Feature, Tag};

#[repr(C)]
#[derive(Clone, Copy, Default, Debug, PartialEq)]
pub struct hb_feature_t {
    pub tag: hb_tag_t,
    pub value: u32,
    pub start: c_uint,
    pub end: c_uint,
}

impl hb_feature_t {
    /// The feature as the shaper takes it.
    pub fn of_shaper(self) -> Feature {
        Feature { tag: Tag(self.tag), value: self.value, start: self.start, end: self.end }
    }

    fn text(self) -> String {
        let mut text = if self.value == 0 { "-".to_owned() } else { String::new() };
        let tag = self.tag.to_be_bytes();
        text.push_str(String::from_utf8_lossy(&tag).trim_end_matches(' '));
        if (self.start, self.end) != (0, u32::MAX) {
            text.push('[');
            if self.start != 0 {
                text.push_str(&self.start.to_string());
            }
            if self.end != self.start.wrapping_add(1) {
                text.push(':');
                if self.end != u32::MAX {
                    text.push_str(&self.end.to_string());
                }
            }
            text.push(']');
        }
        if self.value > 1 {
            text.push_str(&format!("={}", self.value));
        }
        text
    }
}

#[unsafe(no_mangle)]
pub unsafe extern "C" fn hb_feature_from_string(text: *const c_char, length: c_int, feature: *mut hb_feature_t) -> hb_bool_t {
    // SAFETY: HarfBuzz's terms: a text of this length, or with a zero behind it.
    let text = unsafe { bytes(text, length) };
    let end = text.iter().position(|byte| *byte == 0).unwrap_or(text.len());
    let parsed = std::str::from_utf8(&text[..end]).ok().and_then(|text| text.parse::<Feature>().ok());
    let found =
        parsed.map(|found| hb_feature_t { tag: found.tag.as_u32(), value: found.value, start: found.start, end: found.end });
    // SAFETY: HarfBuzz's terms: a place or null.
    unsafe { put(feature, found.unwrap_or_default()) };
    found.is_some().into()
}

#[unsafe(no_mangle)]
pub unsafe extern "C" fn hb_feature_to_string(feature: *mut hb_feature_t, text: *mut c_char, size: c_uint) {
    // SAFETY: HarfBuzz's terms: a feature, and room for `size` bytes.
    unsafe { put_text((*feature).text().as_bytes(), text, size) }
}
