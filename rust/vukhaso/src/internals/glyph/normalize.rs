// Written by tools/plain_rust from crates/rb_glyph. Do not edit.

//! Canonical composition and decomposition, one step at a time.

use crate::glyph::hangul::{compose_hangul, decompose_hangul};
use crate::glyph::tables::{Compositions, Decompositions};

/// The character that two characters compose to: a Hangul syllable by the rule of the Unicode Standard,
/// section 3.12, and any other by its row in the table.
///
/// # Proved
///
/// ```text
/// ensures hangul { (s : ℕ) → HangulComposes s a b → result ≡ Some s }
/// ensures table { ((s : ℕ) → ¬ HangulComposes s a b)
///     → result ≡ composition_of a b compositions.now }
/// ```
#[inline]
pub fn compose(compositions: &Compositions, a: char, b: char) -> Option<char> {
    if let Some(syllable) = compose_hangul(a, b) {
        return Some(syllable);
    }
    compositions.composition_of(a, b)
}

/// The two characters that a character decomposes to, in one step: a Hangul syllable by the rule of the
/// Unicode Standard, section 3.12, and any other by its row in the table, with U+0000 where it has no
/// second part.
///
/// # Proved
///
/// ```text
/// ensures hangul { (a b : ℕ) → HangulComposes ab a b → result ≡ Some (a, b) }
/// ensures table { ((a b : ℕ) → ¬ HangulComposes ab a b)
///     → result ≡ decomposition_of ab decompositions.now }
/// ```
#[inline]
pub fn decompose(decompositions: &Decompositions, ab: char) -> Option<(char, char)> {
    if let Some(pair) = decompose_hangul(ab) {
        return Some(pair);
    }
    decompositions.decomposition_of(ab)
}
