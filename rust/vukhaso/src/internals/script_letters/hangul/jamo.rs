// Written by tools/plain_rust from crates/script_letters. Do not edit.

//! Jamo, the parts of Hangul syllables (the Unicode Standard, section 3.12 and 18.6).

/// Whether the character is a leading consonant.
pub(crate) fn is_leading(character: u32) -> bool {
    matches!(character, 0x1100..=0x115F | 0xA960..=0xA97C)
}

/// Whether the character is a vowel.
pub(crate) fn is_vowel(character: u32) -> bool {
    matches!(character, 0x1160..=0x11A7 | 0xD7B0..=0xD7C6)
}

/// Whether the character is a trailing consonant.
pub(crate) fn is_trailing(character: u32) -> bool {
    matches!(character, 0x11A8..=0x11FF | 0xD7CB..=0xD7FB)
}

/// Whether the character is a tone mark.
pub(crate) fn is_tone(character: u32) -> bool {
    matches!(character, 0x302E..=0x302F)
}

/// The syllable of a leading consonant, a vowel and a trailing consonant, 0 for none; `None` where
/// Unicode has none for them.
pub(crate) fn composed(leading: u32, vowel: u32, trailing: u32) -> Option<u32> {
    let is_modern = matches!(leading, 0x1100..=0x1112)
        && matches!(vowel, 0x1161..=0x1175)
        && (trailing == 0 || matches!(trailing, 0x11A8..=0x11C2));
    if !is_modern {
        return None;
    }
    let index = (leading - 0x1100) * 21 + (vowel - 0x1161);
    let last = if trailing == 0 { 0 } else { trailing - 0x11A7 };
    Some(0xAC00 + index * 28 + last)
}

/// The jamo that make a syllable, and 0 for a trailing consonant that it does not have; `None` for any
/// other character.
pub(crate) fn decomposed(syllable: u32) -> Option<(u32, u32, u32)> {
    if !matches!(syllable, 0xAC00..=0xD7A3) {
        return None;
    }
    let index = syllable - 0xAC00;
    let trailing = index % 28;
    Some((
        0x1100 + index / 588,
        0x1161 + index % 588 / 28,
        if trailing == 0 { 0 } else { 0x11A7 + trailing },
    ))
}
