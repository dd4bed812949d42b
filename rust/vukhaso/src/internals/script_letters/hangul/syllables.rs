// Written by tools/plain_rust from crates/script_letters. Do not edit.

//! What is done with a syllable, by the glyphs that the font has.

use crate::script_items::font::FontGlyphs;
use crate::script_letters::hangul::jamo::{
    composed, decomposed, is_leading, is_trailing, is_vowel,
};

/// What is done with the characters at the cursor.
#[derive(Clone, Copy, PartialEq, Eq, Debug)]
pub(crate) enum Step {
    /// So many of them become one syllable.
    Compose(usize, u32),
    /// So many jamo make a syllable of their own: two, or three with a trailing consonant.
    Jamo(usize),
    /// The syllable becomes these jamo; the last is 0 where it has no trailing consonant, and the trailing consonant behind the
    /// syllable is a part of it where that is true.
    Decompose((u32, u32, u32), bool),
    /// The syllable stays as it is.
    Keep,
    /// It is no syllable, or one that the font has no glyphs for.
    Pass,
}

/// What is done with the characters at the cursor: the current one and the next two, 0 where there are
/// none.
pub(crate) fn next_step<F: FontGlyphs>(font: &F, first: u32, second: u32, third: u32) -> Step {
    if is_leading(first) && is_vowel(second) {
        let trailing = if is_trailing(third) { third } else { 0 };
        return step_of_jamo(font, first, second, trailing);
    }
    match decomposed(first) {
        Some(jamo) => step_of_syllable(font, first, jamo, second),
        None => Step::Pass,
    }
}

/// What is done with a leading consonant, a vowel and a trailing one, or 0: they are composed where the
/// font has the syllable.
fn step_of_jamo<F: FontGlyphs>(font: &F, leading: u32, vowel: u32, trailing: u32) -> Step {
    let count = if trailing == 0 { 2 } else { 3 };
    match composed(leading, vowel, trailing) {
        Some(syllable) if font.has_glyph(syllable) => Step::Compose(count, syllable),
        _ => Step::Jamo(count),
    }
}

/// What is done with a syllable, by the character behind it: it is composed with a trailing consonant,
/// where it has none and the font has the syllable; it becomes jamo where the font does not have it, or
/// a consonant follows that it cannot be composed with.
fn step_of_syllable<F: FontGlyphs>(
    font: &F,
    syllable: u32,
    jamo: (u32, u32, u32),
    next: u32,
) -> Step {
    let (leading, vowel, trailing) = jamo;
    let is_followed = trailing == 0 && is_trailing(next);
    if is_followed {
        if let Some(whole) = composed(leading, vowel, next) {
            if font.has_glyph(whole) {
                return Step::Compose(2, whole);
            }
        }
    }
    let has_glyph = font.has_glyph(syllable);
    if (!has_glyph || is_followed) && has_jamo(font, jamo) {
        return Step::Decompose(jamo, has_glyph && is_followed);
    }
    if has_glyph { Step::Keep } else { Step::Pass }
}

/// Whether the font has the jamo of a syllable.
fn has_jamo<F: FontGlyphs>(font: &F, jamo: (u32, u32, u32)) -> bool {
    let (leading, vowel, trailing) = jamo;
    font.has_glyph(leading) && font.has_glyph(vowel) && (trailing == 0 || font.has_glyph(trailing))
}

/// How many characters from the cursor on may not be broken apart, whatever becomes of them: jamo that
/// make a syllable, and a syllable with the trailing consonant behind it, if they are not composed.
pub(crate) fn unsafe_length(step: Step, first: u32, second: u32, third: u32) -> usize {
    if is_leading(first) && is_vowel(second) {
        return if is_trailing(third) { 3 } else { 2 };
    }
    match decomposed(first) {
        Some(jamo) => unsafe_syllable(step, jamo, second),
        None => 0,
    }
}

/// The same for a syllable, by the character behind it.
fn unsafe_syllable(step: Step, jamo: (u32, u32, u32), next: u32) -> usize {
    let (_, _, trailing) = jamo;
    if trailing == 0 && is_trailing(next) {
        unsafe_before_trailing(step, jamo, next)
    } else {
        0
    }
}

/// The same for a syllable without a trailing consonant, and one that follows.
fn unsafe_before_trailing(step: Step, jamo: (u32, u32, u32), next: u32) -> usize {
    let (leading, vowel, _) = jamo;
    match step {
        Step::Decompose(_, _) => match composed(leading, vowel, next) {
            Some(_) => 2,
            None => 0,
        },
        Step::Keep | Step::Pass => 2,
        Step::Compose(_, _) | Step::Jamo(_) => 0,
    }
}
