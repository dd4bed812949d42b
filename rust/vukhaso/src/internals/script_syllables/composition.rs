// Written by tools/plain_rust from crates/script_syllables. Do not edit.

//! What characters of scripts in syllables compose to.

use crate::glyph::{CharExt, GeneralCategoryExt};

/// What a character and the next one compose to. Vowel signs of several parts stay apart.
///
/// # Proved
///
/// ```text
/// ensures marks { is_mark a ≡ true → result ≡ None }
/// ensures hangul { is_mark a ≡ false → (s : ℕ) → HangulComposes s a b → result ≡ Some s }
/// ensures data { is_mark a ≡ false → ((s : ℕ) → ¬ HangulComposes s a b) → result ≡ composite a b }
/// ```
#[inline]
pub fn compose(a: char, b: char) -> Option<char> {
    if a.general_category().is_mark() {
        return None;
    }
    crate::unicode_tables::compose(a, b)
}
