// Written by tools/plain_rust from crates/unicode_tables. Do not edit.

//! Canonical composition and decomposition in one step, by the data of the kit (Unicode Standard, section 3.11).

use crate::glyph::{compose_hangul, decompose_hangul};
use crate::ucd_normal::composite;
use crate::unicode_tables::mapping::mapping;

/// The character that two characters compose to: a Hangul syllable by the rule of the Unicode Standard,
/// section 3.12, and any other by Unicode's data.
///
/// # Proved
///
/// ```text
/// ensures hangul { (s : ℕ) → HangulComposes s a b → result ≡ Some s }
/// ensures data { ((s : ℕ) → ¬ HangulComposes s a b) → result ≡ composite a b }
/// ```
#[inline]
pub fn compose(a: char, b: char) -> Option<char> {
    if let Some(syllable) = compose_hangul(a, b) {
        return Some(syllable);
    }
    composite(a, b)
}

/// The one or two characters that a character decomposes to in one step: a Hangul syllable by the rule
/// of the Unicode Standard, section 3.12, and any other by Unicode's data.
///
/// # Proved
///
/// ```text
/// ensures hangul { (a b : ℕ) → HangulComposes ab a b → result ≡ Some (a, Some b) }
/// ensures data { ((a b : ℕ) → ¬ HangulComposes ab a b)
///     → result ≡ parts_of (canonical_mapping ab) }
/// ```
#[inline]
pub fn decompose(ab: char) -> Option<(char, Option<char>)> {
    if let Some(pair) = decompose_hangul(ab) {
        return Some((pair.0, Some(pair.1)));
    }
    mapping(ab)
}
