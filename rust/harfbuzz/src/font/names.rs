//! Glyphs as texts.

use crate::font::hb_font_t;
use crate::types::{bytes, hb_bool_t, hb_codepoint_t, put, put_text};
use std::ffi::{c_char, c_int, c_uint};

/// A number that is the whole of a text.
fn number(text: &[u8], radix: u32) -> Option<u32> {
    let text = std::str::from_utf8(text).ok()?;
    let signed = text.starts_with('+');
    if signed { None } else { u32::from_str_radix(text, radix).ok() }
}

impl hb_font_t {
    /// The name of a glyph, or its number where it has none.
    pub fn glyph_text(&self, glyph: hb_codepoint_t, size: usize) -> Vec<u8> {
        self.glyph_name(glyph, size).unwrap_or_else(|| format!("gid{glyph}").into_bytes())
    }

    /// The glyph that a text names: by its name, by its number, or by its character.
    pub fn glyph_of_text(&self, text: &[u8]) -> Option<hb_codepoint_t> {
        if let Some(glyph) = self.glyph_from_name(text) {
            return Some(glyph);
        }
        if let Some(glyph) = number(text, 10) {
            return Some(glyph);
        }
        match text {
            [b'g', b'i', b'd', rest @ ..] if !rest.is_empty() => number(rest, 10),
            [b'u', b'n', b'i', rest @ ..] if !rest.is_empty() => self.nominal_glyph(number(rest, 16)?),
            _ => None,
        }
    }
}

#[unsafe(no_mangle)]
pub unsafe extern "C" fn hb_font_get_glyph_name(
    font: *mut hb_font_t,
    glyph: hb_codepoint_t,
    name: *mut c_char,
    size: c_uint,
) -> hb_bool_t {
    // SAFETY: HarfBuzz's terms: a font that is alive, and room for `size` bytes.
    let found = unsafe { &*font }.glyph_name(glyph, size as usize);
    // SAFETY: as above.
    unsafe { put_text(found.as_deref().unwrap_or_default(), name, size) };
    found.is_some().into()
}

#[unsafe(no_mangle)]
pub unsafe extern "C" fn hb_font_get_glyph_from_name(
    font: *mut hb_font_t,
    name: *const c_char,
    length: c_int,
    glyph: *mut hb_codepoint_t,
) -> hb_bool_t {
    // SAFETY: HarfBuzz's terms: a font that is alive, a text, and a place.
    unsafe {
        let found = (*font).glyph_from_name(bytes(name, length));
        put(glyph, found.unwrap_or(0));
        found.is_some().into()
    }
}

#[unsafe(no_mangle)]
pub unsafe extern "C" fn hb_font_glyph_to_string(font: *mut hb_font_t, glyph: hb_codepoint_t, text: *mut c_char, size: c_uint) {
    // SAFETY: HarfBuzz's terms: a font that is alive, and room for `size` bytes.
    unsafe { put_text(&(*font).glyph_text(glyph, size as usize), text, size) }
}

#[unsafe(no_mangle)]
pub unsafe extern "C" fn hb_font_glyph_from_string(
    font: *mut hb_font_t,
    text: *const c_char,
    length: c_int,
    glyph: *mut hb_codepoint_t,
) -> hb_bool_t {
    // SAFETY: HarfBuzz's terms: a font that is alive, a text, and a place.
    unsafe {
        let found = (*font).glyph_of_text(bytes(text, length));
        put(glyph, found.unwrap_or(0));
        found.is_some().into()
    }
}
