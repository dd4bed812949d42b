// Written by tools/plain_rust from crates/outline_tables. Do not edit.

//! Numbers in DICT data and in charstrings (The Compact Font Format Specification, "DICT Data", and The Type 2 Charstring
//! Format, "Charstring Number Encoding").

use crate::font_tables::bytes::{i16_at, u8_at};

/// The number at the front of DICT data or of a charstring, in the forms that both have; `None` where
/// there is none.
///
/// # Proved
///
/// ```text
/// ensures { result ≡ number code.now }
/// ```
#[inline]
pub fn number(code: &[u8]) -> Option<i16> {
    let first = u8_at(code, 0)?;
    match first {
        28 => i16_at(code, 1),
        32..=246 => Some(i16::from(first) - 139),
        247..=250 => {
            let second = u8_at(code, 1)?;
            let size = u16::from(first - 247) * 256 + u16::from(second) + 108;
            Some(size as i16)
        }
        251..=254 => {
            let second = u8_at(code, 1)?;
            let size = u16::from(first - 251) * 256 + u16::from(second) + 108;
            Some(-(size as i16))
        }
        _ => None,
    }
}

/// How many bytes a number has, by the first of them.
///
/// # Proved
///
/// ```text
/// ensures { result ≡ number_length first }
/// ```
#[inline]
pub fn number_length(first: u8) -> usize {
    match first {
        28 => 3,
        0..=246 => 1,
        _ => 2,
    }
}
