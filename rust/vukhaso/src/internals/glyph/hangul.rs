// Written by tools/plain_rust from crates/rb_glyph. Do not edit.

//! Hangul syllables, made from their parts by the rule of the Unicode Standard, section 3.12, with no table.

const S_BASE: u32 = 0xAC00;

const L_BASE: u32 = 0x1100;

const V_BASE: u32 = 0x1161;

const T_BASE: u32 = 0x11A7;

const L_COUNT: u32 = 19;

const V_COUNT: u32 = 21;

const T_COUNT: u32 = 28;

const S_COUNT: u32 = L_COUNT * V_COUNT * T_COUNT;

/// The syllable that two characters make: a leading consonant and a vowel, or a syllable without a
/// trailing consonant and such a consonant. The first trailing consonant is U+11A8: U+11A7 is none.
///
/// # Proved
///
/// ```text
/// ensures { ComposesTo a b result }
/// ```
#[inline]
pub fn compose_hangul(a: char, b: char) -> Option<char> {
    if let Some(s) = compose_leading(a, b) {
        return Some(s);
    }
    compose_trailing(a, b)
}

/// The syllable of a leading consonant and a vowel.
fn compose_leading(a: char, b: char) -> Option<char> {
    let i = (a as u32).checked_sub(L_BASE)?;
    let j = (b as u32).checked_sub(V_BASE)?;
    if i >= L_COUNT || j >= V_COUNT {
        return None;
    }
    char::from_u32(S_BASE + (i * V_COUNT + j) * T_COUNT)
}

/// The syllable of a syllable without a trailing consonant and such a consonant.
fn compose_trailing(a: char, b: char) -> Option<char> {
    let index = (a as u32).checked_sub(S_BASE)?;
    let t = (b as u32).checked_sub(T_BASE)?;
    if index >= S_COUNT || index % T_COUNT != 0 || t == 0 || t >= T_COUNT {
        return None;
    }
    char::from_u32(a as u32 + t)
}

/// The two characters that make a syllable.
///
/// # Proved
///
/// ```text
/// ensures { DecomposesTo s result }
/// ```
#[inline]
pub fn decompose_hangul(s: char) -> Option<(char, char)> {
    let index = (s as u32).checked_sub(S_BASE)?;
    if index >= S_COUNT {
        return None;
    }
    let t = index % T_COUNT;
    if t != 0 {
        return Some((char::from_u32(s as u32 - t)?, char::from_u32(T_BASE + t)?));
    }
    let i = index / T_COUNT / V_COUNT;
    let j = index / T_COUNT % V_COUNT;
    Some((char::from_u32(L_BASE + i)?, char::from_u32(V_BASE + j)?))
}
