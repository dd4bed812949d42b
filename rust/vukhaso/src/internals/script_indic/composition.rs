// Written by tools/plain_rust from crates/script_indic. Do not edit.

//! Characters that are taken apart and composed otherwise than by Unicode's canonical mappings.

/// The one or two characters that a character decomposes to. Some letters stay whole, since fonts have
/// glyphs for them.
///
/// # Proved
///
/// ```text
/// ensures whole { stays_whole character ≡ true → result ≡ None }
/// ensures hangul { stays_whole character ≡ false → (a b : ℕ) → HangulComposes character a b → result ≡ Some (a, Some b) }
/// ensures data { stays_whole character ≡ false → ((a b : ℕ) → ¬ HangulComposes character a b)
///     → result ≡ parts_of (canonical_mapping character) }
/// ```
#[inline]
pub fn decompose(character: char) -> Option<(char, Option<char>)> {
    match character {
        '\u{931}' | '\u{9DC}' | '\u{9DD}' | '\u{B94}' => None,
        _ => crate::unicode_tables::decompose(character),
    }
}

/// What a character and the next one compose to. Vowel signs of several parts stay apart; the Bengali
/// letter YYA is composed, though canonical composition leaves it out.
///
/// # Proved
///
/// ```text
/// ensures letter { is_yya a b ≡ true → result ≡ Some 0x9DF }
/// ensures marks { is_yya a b ≡ false → is_mark a ≡ true → result ≡ None }
/// ensures hangul { is_yya a b ≡ false → is_mark a ≡ false → (s : ℕ) → HangulComposes s a b → result ≡ Some s }
/// ensures data { is_yya a b ≡ false → is_mark a ≡ false → ((s : ℕ) → ¬ HangulComposes s a b)
///     → result ≡ composite a b }
/// ```
#[inline]
pub fn compose(a: char, b: char) -> Option<char> {
    if a == '\u{9AF}' && b == '\u{9BC}' {
        return Some('\u{9DF}');
    }
    crate::script_syllables::composition::compose(a, b)
}
