// Written by tools/plain_rust from crates/script_universal. Do not edit.

//! Characters that are taken apart otherwise than by Unicode's canonical mappings.

/// The one or two characters that a character decomposes to. Of vowel signs on both sides of a letter,
/// the left part is apart, and what is left keeps the number of the whole.
///
/// # Proved
///
/// ```text
/// ensures parts { is_two_part character ≡ true → result ≡ Some (0x17C1, Some character) }
/// ensures hangul { is_two_part character ≡ false → (a b : ℕ) → HangulComposes character a b → result ≡ Some (a, Some b) }
/// ensures data { is_two_part character ≡ false → ((a b : ℕ) → ¬ HangulComposes character a b)
///     → result ≡ parts_of (canonical_mapping character) }
/// ```
#[inline]
pub fn decompose(character: char) -> Option<(char, Option<char>)> {
    match character {
        '\u{17BE}' | '\u{17BF}' | '\u{17C0}' | '\u{17C4}' | '\u{17C5}' => {
            Some(('\u{17C1}', Some(character)))
        }
        _ => crate::unicode_tables::decompose(character),
    }
}
