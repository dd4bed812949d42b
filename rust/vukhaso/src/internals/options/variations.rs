// Written by tools/plain_rust from crates/shape_options. Do not edit.

//! Lists of variations, as in `wght=500,slnt=-7.5`.

use crate::common::Tag;
use crate::font_variations::user_variations::Variation;
use crate::memory::{AllocError, TryIterator, Vec};
use crate::numbers::nearest_f64_to_f32_with_nan;

/// The variations of a list, which commas and spaces part, in their order. What reads as no variation
/// is left out, as in HarfBuzz's `hb-shape --variations`.
///
/// # Errors
///
/// `Err(AllocError)` where memory ran out.
///
/// # Proved
///
/// ```text
/// ensures { IfOk result (λ variations. All HasTag variations.items) }
/// ```
#[inline]
pub fn variations(list: &str) -> Result<Vec<Variation>, AllocError> {
    let mut variations = Vec::new();
    let parts: Vec<&str> = list.split([',', ' ']).try_into_vec()?;
    for part in parts.as_slice() {
        push_variation(&mut variations, part)?;
    }
    Ok(variations)
}

/// Adds the variation that a text reads as, if it reads as one.
fn push_variation(variations: &mut Vec<Variation>, text: &str) -> Result<(), AllocError> {
    if let Some(variation) = variation(text) {
        variations.push(variation)?;
    }
    Ok(())
}

/// The variation that a text reads as: a tag of one to four letters, digits and `_`, an equals sign or
/// nothing, and a number.
fn variation(text: &str) -> Option<Variation> {
    let (tag, rest) = text.split_at_checked(tag_len(text.as_bytes()))?;
    if tag.is_empty() || tag.len() > 4 {
        return None;
    }
    Some(Variation {
        tag: Tag::from_bytes_lossy(tag.as_bytes()),
        value: value(behind_equals(rest)?)?,
    })
}

/// What a text has behind an equals sign, or all of it where it begins with none.
fn behind_equals(text: &str) -> Option<&str> {
    match text.as_bytes() {
        [b'=', ..] => text.get(1..),
        _ => Some(text),
    }
}

/// How many letters a text begins with that a tag may have.
fn tag_len(text: &[u8]) -> usize {
    let mut len = 0;
    while len < text.len() && is_letter(text[len]) {
        len += 1;
    }
    len
}

/// Whether a tag may have this letter, digit or `_`.
fn is_letter(letter: u8) -> bool {
    letter.is_ascii_alphanumeric() || letter == b'_'
}

/// The number that a text reads as, in digits, with a sign, a fraction and an exponent or without.
///
/// # Proved
///
/// ```text
/// ensures { result ≡ number_of text.now }
/// ```
#[inline]
pub fn value(text: &str) -> Option<f32> {
    if !begins_number(text.as_bytes()) {
        return None;
    }
    match text.parse::<f64>() {
        Ok(number) => Some(nearest_f64_to_f32_with_nan(number)),
        Err(_) => None,
    }
}

/// Whether a text begins with a digit or a point, behind a sign or with none.
fn begins_number(text: &[u8]) -> bool {
    match text {
        [b'+' | b'-', first, ..] | [first, ..] => first.is_ascii_digit() || *first == b'.',
        [] => false,
    }
}
