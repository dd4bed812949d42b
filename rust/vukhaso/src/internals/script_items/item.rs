// Written by tools/plain_rust from crates/script_items. Do not edit.

//! What the shapers of scripts keep with an item: a byte of their own, and its Unicode properties, in the bits that HarfBuzz's
//! `hb-ot-layout.hh` gives them.

use crate::glyph::hb_gc::{
    RB_UNICODE_GENERAL_CATEGORY_ENCLOSING_MARK, RB_UNICODE_GENERAL_CATEGORY_FORMAT,
    RB_UNICODE_GENERAL_CATEGORY_NON_SPACING_MARK, RB_UNICODE_GENERAL_CATEGORY_SPACING_MARK,
};
use crate::glyph::{GlyphPropsFlags, UnicodeProps, hb_glyph_info_t};

/// The byte that the shapers of scripts keep what they like in, the highest of `var2`.
///
/// # Proved
///
/// ```text
/// ensures { result ≡ shaper_byte info.now }
/// ```
#[inline]
pub fn shaper_byte(info: &hb_glyph_info_t) -> u8 {
    (info.var2 / 0x100_0000) as u8
}

/// Sets the byte that the shapers of scripts keep what they like in.
///
/// # Proved
///
/// ```text
/// ensures { info.new ≡ with_shaper_byte byte info.old }
/// ```
#[inline]
pub fn set_shaper_byte(info: &mut hb_glyph_info_t, byte: u8) {
    info.var2 = info.var2 % 0x100_0000 + u32::from(byte) * 0x100_0000;
}

/// The number of the general category of a character, as the module `hb_gc` of `rb_glyph` has it.
///
/// # Proved
///
/// ```text
/// ensures { result ≡ marks.category info.now }
/// ```
#[inline]
pub fn general_category(info: &hb_glyph_info_t) -> u32 {
    u32::from(info.unicode_props() & UnicodeProps::GENERAL_CATEGORY.bits())
}

/// Whether the character is a mark.
///
/// # Proved
///
/// ```text
/// ensures { result ≡ marks.is_mark info.now }
/// ```
#[inline]
pub fn is_unicode_mark(info: &hb_glyph_info_t) -> bool {
    matches!(
        general_category(info),
        RB_UNICODE_GENERAL_CATEGORY_SPACING_MARK
            | RB_UNICODE_GENERAL_CATEGORY_ENCLOSING_MARK
            | RB_UNICODE_GENERAL_CATEGORY_NON_SPACING_MARK
    )
}

/// Whether the character is a mark that takes no part in joining, or a format character.
///
/// # Proved
///
/// ```text
/// ensures { result ≡ marks.is_mark_or_format info.now }
/// ```
#[inline]
pub fn is_mark_or_format(info: &hb_glyph_info_t) -> bool {
    matches!(
        general_category(info),
        RB_UNICODE_GENERAL_CATEGORY_NON_SPACING_MARK
            | RB_UNICODE_GENERAL_CATEGORY_ENCLOSING_MARK
            | RB_UNICODE_GENERAL_CATEGORY_FORMAT
    )
}

/// Makes the item a nonspacing mark of class 0 that goes on with the grapheme before it.
///
/// # Proved
///
/// ```text
/// ensures is { info.new ≡ continuing_mark info.old }
/// ensures cluster { info.new.cluster ≡ info.old.cluster }
/// ```
#[inline]
pub fn become_mark(info: &mut hb_glyph_info_t) {
    let flags = (info.unicode_props() | UnicodeProps::CONTINUATION.bits()) & 0xE0;
    info.set_unicode_props(RB_UNICODE_GENERAL_CATEGORY_NON_SPACING_MARK as u16 | flags);
}

/// The class by which a mark is reordered; 0 for any other character.
///
/// # Proved
///
/// ```text
/// ensures { result ≡ marks.kept_class info.now }
/// ```
#[inline]
pub fn modified_combining_class(info: &hb_glyph_info_t) -> u16 {
    if is_unicode_mark(info) {
        info.unicode_props() >> 8
    } else {
        0
    }
}

/// Sets the class by which a mark is reordered, and later placed, by its lowest 8 bits. Any other
/// character stays as it is.
///
/// # Proved
///
/// ```text
/// ensures is { info.new ≡ marks.with_class class info.old }
/// ensures cluster { info.new.cluster ≡ info.old.cluster }
/// ```
#[inline]
pub fn set_modified_combining_class(info: &mut hb_glyph_info_t, class: u16) {
    if is_unicode_mark(info) {
        info.set_unicode_props(class % 256 * 256 | info.unicode_props() & 0xFF);
    }
}

/// Whether the glyph is that of a character which is invisible by default, and no lookup put it there.
///
/// # Proved
///
/// ```text
/// ensures { result ≡ properties.is_default_ignorable info.now }
/// ```
#[inline]
pub fn is_default_ignorable(info: &hb_glyph_info_t) -> bool {
    info.unicode_props() & UnicodeProps::IGNORABLE.bits() != 0
        && info.glyph_props() & GlyphPropsFlags::SUBSTITUTED.bits() == 0
}
