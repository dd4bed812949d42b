// Written by tools/plain_rust from crates/script_indic. Do not edit.

//! What an item of an Indic syllable is, by its category and by what became of its glyph.

use crate::glyph::hb_glyph_info_t;
use crate::script_syllables::item::{category, is_ligated, is_one};
use crate::script_syllables::{Category, item};

/// Whether the item is a consonant, a medial one too, or what takes signs as one. What became a
/// ligature is none.
pub(crate) fn is_consonant(info: &hb_glyph_info_t) -> bool {
    item::is_consonant(info) || is_one(info, Category::ConsonantMedial)
}

/// Whether the item is a vowel sign.
pub(crate) fn is_matra(info: &hb_glyph_info_t) -> bool {
    category(info).is(Category::Matra) || category(info).is(Category::MatraPost)
}

/// Whether the item is a vowel sign or a halant, and no ligature.
pub(crate) fn is_matra_or_halant(info: &hb_glyph_info_t) -> bool {
    !is_ligated(info) && (is_matra(info) || category(info).is(Category::Halant))
}
