// Written by tools/plain_rust from crates/shaping_passes. Do not edit.

//! What normalization asks of a font and of the rules of a script.

use super::parts::{class_of, composed_of, parts_of};
use crate::buffer::{CombiningClasses, Compositions, Decompositions, hb_glyph_info_t};

/// A font and the rules by which characters are taken apart.
///
/// # Proved
///
/// ```text
/// ghost font: { Self → Font }
/// ```
pub trait FontCharacters {
    /// Whether the font has a glyph for the character.
    ///
    /// # Proved
    ///
    /// ```text
    /// ensures { result ≡ (font self.now).has character }
    /// ```
    fn has_glyph(&self, character: u32) -> bool;

    /// The two parts that a character is taken into, the second U+0000 where there is none.
    ///
    /// # Proved
    ///
    /// ```text
    /// ensures { result ≡ (font self.now).parts character }
    /// ```
    fn parts_of(&self, character: u32) -> Option<(u32, u32)>;

    /// Whether characters are taken apart as little as the font needs, and not as far as it can.
    ///
    /// # Proved
    ///
    /// ```text
    /// ensures { result ≡ (font self.now).fewest }
    /// ```
    fn takes_fewest(&self) -> bool;
}

/// A table is as good as a font that has every glyph.
///
/// # Proved
///
/// ```text
/// ghost font = { every_glyph }
/// ```
impl<'a> FontCharacters for Decompositions<'a> {
    fn has_glyph(&self, _character: u32) -> bool {
        true
    }

    fn parts_of(&self, character: u32) -> Option<(u32, u32)> {
        parts_of(self, character)
    }

    fn takes_fewest(&self) -> bool {
        false
    }
}

/// The classes by which marks are put in order. A table has those of Unicode, and a shaper may have others in its glyphs.
///
/// # Proved
///
/// ```text
/// ghost classes: { Self → Classes }
/// ghost alike: { (s : Self) → ReadsCores (classes s) }
/// ```
pub trait MarkClasses {
    /// The class of a mark, and 0 of any other character.
    ///
    /// # Proved
    ///
    /// ```text
    /// ensures { result ≡ classes self.now info.now }
    /// ```
    fn class_of(&self, info: &hb_glyph_info_t) -> u16;
}

///
/// # Proved
///
/// ```text
/// ghost classes = { class_at }
/// ghost alike = { λ rows g. refl }
/// ```
impl<'a> MarkClasses for CombiningClasses<'a> {
    fn class_of(&self, info: &hb_glyph_info_t) -> u16 {
        u16::from(class_of(self, info.glyph_id))
    }
}

/// What pairs of characters compose to.
///
/// # Proved
///
/// ```text
/// ghost pairs: { Self → Pairs }
/// ghost alike: { (s : Self) → PairsReadCores (pairs s) }
/// ```
pub trait CharacterPairs {
    /// The character that a starter and another character compose to; `None` where they do not, or the font
    /// lacks it.
    ///
    /// # Proved
    ///
    /// ```text
    /// ensures { result ≡ pairs self.now starter.now info.now }
    /// ```
    fn composed_of(&self, starter: &hb_glyph_info_t, info: &hb_glyph_info_t) -> Option<u32>;
}

///
/// # Proved
///
/// ```text
/// ghost pairs = { pair_in }
/// ghost alike = { λ rows starter g. refl }
/// ```
impl<'a> CharacterPairs for Compositions<'a> {
    fn composed_of(&self, starter: &hb_glyph_info_t, info: &hb_glyph_info_t) -> Option<u32> {
        composed_of(self, starter.glyph_id, info.glyph_id)
    }
}
