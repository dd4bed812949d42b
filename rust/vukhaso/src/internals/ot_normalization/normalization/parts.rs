// Written by tools/plain_rust from crates/ot_normalization. Do not edit.

//! What a character is taken apart into, by the rules of a script and the glyphs of a font.

use crate::font_functions::FontFunctions;
use crate::passes::normalization::FontCharacters;
use crate::script_shapers::ScriptShaper;

/// How characters are taken apart.
#[derive(Debug)]
pub(crate) struct Decomposer<'a, F> {
    /// The font.
    pub font: &'a F,
    /// The shaper of the text, which says what a character decomposes to.
    pub shaper: ScriptShaper,
    /// Whether they are taken apart as little as the font needs, and not as far as it can.
    pub short_circuit: bool,
}

///
/// # Proved
///
/// ```text
/// ghost font = { λ decomposer. font_of (F.has decomposer.font.now) decomposer.shaper decomposer.short_circuit }
/// ```
impl<F: FontFunctions> FontCharacters for Decomposer<'_, F> {
    fn has_glyph(&self, character: u32) -> bool {
        self.font.nominal_glyph(character).is_some()
    }

    fn parts_of(&self, character: u32) -> Option<(u32, u32)> {
        parts_of(self.shaper, character)
    }

    fn takes_fewest(&self) -> bool {
        self.short_circuit
    }
}

/// The two parts of a code point, the second U+0000 where there is none.
pub(crate) fn parts_of(shaper: ScriptShaper, character: u32) -> Option<(u32, u32)> {
    match char::from_u32(character) {
        Some(character) => parts_of_char(shaper, character),
        None => None,
    }
}

/// Those of a character.
fn parts_of_char(shaper: ScriptShaper, character: char) -> Option<(u32, u32)> {
    with_zero(shaper.decompose(character))
}

/// Two parts, with U+0000 where there is no second.
fn with_zero(parts: Option<(char, Option<char>)>) -> Option<(u32, u32)> {
    match parts {
        Some((first, Some(second))) => Some((first as u32, second as u32)),
        Some((first, None)) => Some((first as u32, 0)),
        None => None,
    }
}
