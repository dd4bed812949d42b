// Written by tools/plain_rust from crates/ot_normalization. Do not edit.

//! What a mark and the character before it compose to, by the rules of a script and the glyphs of a font.

use crate::buffer::hb_glyph_info_t;
use crate::font_functions::FontFunctions;
use crate::passes::normalization::CharacterPairs;
use crate::script_items::item::is_unicode_mark;
use crate::script_shapers::{ScriptPlan, ScriptShaper};

/// How marks are composed.
#[derive(Debug)]
pub(crate) struct Composing<'a, F> {
    /// The font.
    pub font: &'a F,
    /// The shaper of the text, which says what characters compose to.
    pub shaper: ScriptShaper,
    /// Whether the font places marks by its lookups.
    pub has_gpos_mark: bool,
}

impl<'a, F> Composing<'a, F> {
    /// How they are composed in a script, with this font.
    ///
    /// # Proved
    ///
    /// That it returns.
    #[inline]
    pub fn new(font: &'a F, script: &ScriptPlan) -> Self {
        Composing {
            font,
            shaper: script.shaper,
            has_gpos_mark: script.has_gpos_mark,
        }
    }
}

///
/// # Proved
///
/// ```text
/// ghost pairs = { λ composing. pairs_of (F.has composing.font.now) composing.shaper composing.has_gpos_mark }
/// ghost alike = { λ composing starter g. refl }
/// ```
impl<F: FontFunctions> CharacterPairs for Composing<'_, F> {
    fn composed_of(&self, starter: &hb_glyph_info_t, info: &hb_glyph_info_t) -> Option<u32> {
        pair_of(self, starter, info)
    }
}

/// What a starter and a mark compose to, if the font has it.
pub(crate) fn pair_of<F: FontFunctions>(
    composing: &Composing<F>,
    starter: &hb_glyph_info_t,
    info: &hb_glyph_info_t,
) -> Option<u32> {
    if !is_unicode_mark(info) {
        return None;
    }
    match char::from_u32(starter.glyph_id) {
        Some(a) => match char::from_u32(info.glyph_id) {
            Some(b) => composite_of(composing, a, b),
            None => None,
        },
        None => None,
    }
}

/// What two characters compose to, if the font has it.
pub(crate) fn composite_of<F: FontFunctions>(
    composing: &Composing<F>,
    a: char,
    b: char,
) -> Option<u32> {
    match compose(composing, a, b) {
        Some(composed) => if_there(composing.font, composed as u32),
        None => None,
    }
}

/// The character, if the font has it.
fn if_there<F: FontFunctions>(font: &F, character: u32) -> Option<u32> {
    if font.nominal_glyph(character).is_some() {
        Some(character)
    } else {
        None
    }
}

/// What two characters compose to, whatever the font has.
fn compose<F: FontFunctions>(composing: &Composing<F>, a: char, b: char) -> Option<char> {
    composing.shaper.compose(a, b, composing.has_gpos_mark)
}
