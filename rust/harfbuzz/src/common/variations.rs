//! Values on the axes of a font, as texts.

use crate::common::tags::tag_of;
use crate::types::{bytes, hb_bool_t, hb_tag_t, put, put_text};
use std::ffi::{c_char, c_int, c_uint};

#[repr(C)]
#[derive(Clone, Copy, Default, Debug, PartialEq)]
pub struct hb_variation_t {
    pub tag: hb_tag_t,
    pub value: f32,
}

fn spaces(text: &[u8]) -> &[u8] {
    text.trim_ascii_start()
}

/// The tag at the front of a text, with or without quotes, and what stands behind it.
fn front_tag(text: &[u8]) -> Option<(hb_tag_t, &[u8])> {
    let (quote, text) = match text {
        [quote @ (b'\'' | b'"'), rest @ ..] => (Some(*quote), rest),
        _ => (None, text),
    };
    let length = text.iter().take_while(|byte| byte.is_ascii_alphanumeric() || **byte == b'_').count();
    let (name, rest) = text.split_at(length);
    match quote {
        None if (1..=4).contains(&length) => Some((tag_of(name), rest)),
        Some(quote) if length == 4 => Some((tag_of(name), rest.strip_prefix(&[quote])?)),
        _ => None,
    }
}

/// A number that is the whole of a text but for spaces behind it.
fn number(text: &[u8]) -> Option<f64> {
    let text = std::str::from_utf8(spaces(text)).ok()?.trim_end();
    let plain = text.bytes().all(|byte| matches!(byte, b'0'..=b'9' | b'+' | b'-' | b'.' | b'e' | b'E'));
    if plain { text.parse().ok() } else { None }
}

fn parse(text: &[u8]) -> Option<hb_variation_t> {
    let (tag, rest) = front_tag(spaces(text))?;
    let rest = spaces(rest);
    let value = number(rest.strip_prefix(b"=").unwrap_or(rest))?;
    Some(hb_variation_t { tag, value: value as f32 })
}

/// A number with six digits, as C's `%g` writes it.
fn general(value: f64) -> String {
    if !value.is_finite() || value == 0.0 {
        return format!("{value}").to_lowercase();
    }
    let scientific = format!("{value:.5e}");
    let (digits, exponent) = scientific.split_once('e').unwrap_or((&scientific, "0"));
    let exponent: i32 = exponent.parse().unwrap_or(0);
    let cut = |text: &str| {
        if text.contains('.') { text.trim_end_matches('0').trim_end_matches('.').to_owned() } else { text.to_owned() }
    };
    if (-4..6).contains(&exponent) {
        cut(&format!("{value:.*}", (5 - exponent).max(0) as usize))
    } else {
        format!("{}e{}{:02}", cut(digits), if exponent < 0 { '-' } else { '+' }, exponent.abs())
    }
}

#[unsafe(no_mangle)]
pub unsafe extern "C" fn hb_variation_from_string(
    text: *const c_char,
    length: c_int,
    variation: *mut hb_variation_t,
) -> hb_bool_t {
    // SAFETY: HarfBuzz's terms: a text of this length, or with a zero behind it.
    let text = unsafe { bytes(text, length) };
    let end = text.iter().position(|byte| *byte == 0).unwrap_or(text.len());
    let found = parse(&text[..end]);
    // SAFETY: HarfBuzz's terms: a place or null.
    unsafe { put(variation, found.unwrap_or_default()) };
    found.is_some().into()
}

#[unsafe(no_mangle)]
pub unsafe extern "C" fn hb_variation_to_string(variation: *mut hb_variation_t, text: *mut c_char, size: c_uint) {
    // SAFETY: HarfBuzz's terms: a variation, and room for `size` bytes.
    unsafe {
        let tag = (*variation).tag.to_be_bytes();
        let tag = String::from_utf8_lossy(&tag);
        let written = format!("{}={}", tag.trim_end_matches(' '), general((*variation).value.into()));
        put_text(written.as_bytes(), text, size);
    }
}
