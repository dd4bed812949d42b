// Written by tools/plain_rust from crates/ot_characters. Do not edit.

//! What the steps of shaping ask of a character, and set: its Unicode properties, in the bits that HarfBuzz's
//! `hb-ot-layout.hh` gives them.

use crate::buffer::{UnicodeProps, hb_glyph_info_t};
use crate::glyph::hb_gc::{
    RB_UNICODE_GENERAL_CATEGORY_DECIMAL_NUMBER, RB_UNICODE_GENERAL_CATEGORY_FORMAT,
    RB_UNICODE_GENERAL_CATEGORY_LOWERCASE_LETTER, RB_UNICODE_GENERAL_CATEGORY_UPPERCASE_LETTER,
};
use crate::script_items::glyph_info::is_continuation;
use crate::script_items::item::general_category;

/// Whether the character is a letter.
pub(crate) fn is_letter(info: &hb_glyph_info_t) -> bool {
    let category = general_category(info);
    RB_UNICODE_GENERAL_CATEGORY_LOWERCASE_LETTER <= category
        && category <= RB_UNICODE_GENERAL_CATEGORY_UPPERCASE_LETTER
}

/// Whether the character is a decimal digit.
///
/// # Proved
///
/// ```text
/// ensures { result ≡ (category info.now == 13) }
/// ```
#[inline]
pub fn is_decimal_number(info: &hb_glyph_info_t) -> bool {
    general_category(info) == RB_UNICODE_GENERAL_CATEGORY_DECIMAL_NUMBER
}

/// Whether the character is a regional indicator, two of which make a flag.
pub(crate) fn is_regional_indicator(info: &hb_glyph_info_t) -> bool {
    0x1F1E6 <= info.glyph_id && info.glyph_id <= 0x1F1FF
}

/// Whether the character is a digit or a regional indicator.
pub(crate) fn is_number(info: &hb_glyph_info_t) -> bool {
    is_decimal_number(info) || is_regional_indicator(info)
}

/// Says that the character goes on with the grapheme before it.
pub(crate) fn set_continuation(info: &mut hb_glyph_info_t) {
    info.set_unicode_props(info.unicode_props() | UnicodeProps::CONTINUATION.bits());
}

/// Whether the second item goes on with the grapheme of the first.
pub(crate) fn is_same_grapheme(_first: &hb_glyph_info_t, second: &hb_glyph_info_t) -> bool {
    is_continuation(second)
}

/// Whether the character is the zero width joiner.
pub(crate) fn is_zwj(info: &hb_glyph_info_t) -> bool {
    general_category(info) == RB_UNICODE_GENERAL_CATEGORY_FORMAT
        && info.unicode_props() & UnicodeProps::CF_ZWJ.bits() != 0
}
