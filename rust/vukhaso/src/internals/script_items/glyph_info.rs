// Written by tools/plain_rust from crates/script_items. Do not edit.

//! What the steps of shaping ask of a character, and set: its Unicode properties, in the bits that HarfBuzz's
//! `hb-ot-layout.hh` gives them. They are the general category and flags in the low byte, and in the high byte what is kept of a
//! character of that category: of a mark the class that it is reordered by, of a space its kind.

use crate::buffer::{CombiningClasses, UnicodeProps, hb_glyph_info_t};
use crate::glyph::hb_gc::{
    RB_UNICODE_GENERAL_CATEGORY_FORMAT, RB_UNICODE_GENERAL_CATEGORY_NON_SPACING_MARK,
    RB_UNICODE_GENERAL_CATEGORY_SPACE_SEPARATOR,
};
use crate::glyph::space_t;
use crate::script_items::item::general_category;
use crate::ucd_normal::canonical_combining_class;

/// The flags in the low byte of the properties, above the general category.
const LOW_FLAGS: u16 = 0xE0;

/// Sets the general category, and takes away what the high byte says.
fn set_general_category(info: &mut hb_glyph_info_t, category: u16) {
    info.set_unicode_props(category | info.unicode_props() & LOW_FLAGS);
}

/// Sets the properties of a character that is not shaped yet, and adds what is to be remembered of the
/// text to its scratch flags: whether it has characters past ASCII, ones that are invisible by default,
/// and grapheme joiners. A number that is no character has no properties.
///
/// # Proved
///
/// ```text
/// ensures is { info.new ≡ properties.with_properties info.old }
/// ensures remembered { scratch_flags.new ≡ properties.remembered info.old.glyph_id scratch_flags.old }
/// ensures only { info.new ≡ record info.old { var2 = info.new.var2 } }
/// ensures cluster { info.new.cluster ≡ info.old.cluster }
/// ```
#[inline(always)]
pub fn set_unicode_props(info: &mut hb_glyph_info_t, scratch_flags: &mut u32) {
    match char::from_u32(info.glyph_id) {
        Some(character) => set_character_props(info, character, scratch_flags),
        None => info.set_unicode_props(0),
    }
}

/// Sets the properties of an item that is this character.
///
/// # Requires
///
/// - `scalar: IsScalar info.old.glyph_id`
/// - `same: character ≡ info.old.glyph_id`
#[inline(always)]
fn set_character_props(info: &mut hb_glyph_info_t, character: char, scratch_flags: &mut u32) {
    debug_assert!(char::from_u32(info.glyph_id).is_some());
    debug_assert!(u32::from(character) == info.glyph_id);
    let class = combining_class(character);
    match CombiningClasses::new(&[(character, class)]) {
        Some(classes) => info.init_unicode_props(scratch_flags, &classes),
        None => {}
    }
}

/// The combining class of a character. The first that has one is U+0300. The Telugu length marks come
/// before a halant.
fn combining_class(character: char) -> u8 {
    if character < '\u{300}' {
        return 0;
    }
    match character {
        '\u{C55}' => 4,
        '\u{C56}' => 5,
        _ => canonical_combining_class(character),
    }
}

/// Whether the character is a mark without width.
///
/// # Proved
///
/// ```text
/// ensures { result ≡ marks.is_nonspacing info.now }
/// ```
#[inline]
pub fn is_nonspacing_mark(info: &hb_glyph_info_t) -> bool {
    general_category(info) == RB_UNICODE_GENERAL_CATEGORY_NON_SPACING_MARK
}

/// Whether the character goes on with the grapheme before it.
///
/// # Proved
///
/// ```text
/// ensures { result ≡ is_continuation info.now }
/// ```
#[inline]
pub fn is_continuation(info: &hb_glyph_info_t) -> bool {
    info.unicode_props() & UnicodeProps::CONTINUATION.bits() != 0
}

/// Whether the item is a variation selector that the font does not know.
///
/// # Proved
///
/// ```text
/// ensures { result ≡ selectors.is_unknown_selector info.now }
/// ```
#[inline]
pub fn is_variation_selector(info: &hb_glyph_info_t) -> bool {
    general_category(info) == RB_UNICODE_GENERAL_CATEGORY_FORMAT
        && info.unicode_props() & UnicodeProps::CF_VS.bits() != 0
}

/// Says that the item is a variation selector that the font does not know.
///
/// # Proved
///
/// ```text
/// ensures is { info.new ≡ selectors.unknown_selector info.old }
/// ensures cluster { info.new.cluster ≡ info.old.cluster }
/// ```
#[inline]
pub fn set_variation_selector(info: &mut hb_glyph_info_t) {
    set_general_category(info, RB_UNICODE_GENERAL_CATEGORY_FORMAT as u16);
    info.set_unicode_props(info.unicode_props() | UnicodeProps::CF_VS.bits());
}

/// Takes back that the item is a variation selector that the font does not know: it is a mark without
/// width then.
///
/// # Proved
///
/// ```text
/// ensures is { info.new ≡ selectors.with_category 12 info.old }
/// ensures cluster { info.new.cluster ≡ info.old.cluster }
/// ```
#[inline]
pub fn clear_variation_selector(info: &mut hb_glyph_info_t) {
    set_general_category(info, RB_UNICODE_GENERAL_CATEGORY_NON_SPACING_MARK as u16);
}

/// Says that the character is visible by default.
///
/// # Proved
///
/// ```text
/// ensures is { info.new ≡ properties.visible info.old }
/// ensures cluster { info.new.cluster ≡ info.old.cluster }
/// ```
#[inline]
pub fn clear_default_ignorable(info: &mut hb_glyph_info_t) {
    info.set_unicode_props(info.unicode_props() & !UnicodeProps::IGNORABLE.bits());
}

/// Whether the character is a space.
///
/// # Proved
///
/// ```text
/// ensures { result ≡ spaces.is_space info.now }
/// ```
#[inline]
pub fn is_unicode_space(info: &hb_glyph_info_t) -> bool {
    general_category(info) == RB_UNICODE_GENERAL_CATEGORY_SPACE_SEPARATOR
}

/// Keeps the kind of a space that the font has no glyph for.
///
/// # Proved
///
/// ```text
/// ensures is { info.new ≡ spaces.with_kind space info.old }
/// ensures cluster { info.new.cluster ≡ info.old.cluster }
/// ```
#[inline]
pub fn set_space_fallback(info: &mut hb_glyph_info_t, space: space_t) {
    info.set_unicode_props(u16::from(space) * 256 | info.unicode_props() & 0xFF);
}

/// The kind of a space that the font has no glyph for, as the module `hb_unicode_funcs_t` of `rb_glyph`
/// numbers them; 0 for any other item.
///
/// # Proved
///
/// ```text
/// ensures { result ≡ spaces.kept_kind info.now }
/// ```
#[inline]
pub fn space_fallback(info: &hb_glyph_info_t) -> u8 {
    if is_unicode_space(info) {
        (info.unicode_props() >> 8) as u8
    } else {
        0
    }
}
