// Written by tools/plain_rust from crates/ot_characters. Do not edit.

//! Characters that have another form in text which runs from right to left or in vertical lines (HarfBuzz, `hb_ot_rotate_chars`).

use crate::buffer::{CharExt, Direction, Mirrors, hb_buffer_t, hb_glyph_info_t};
use crate::font_functions::FontFunctions;
use crate::ot_characters::glyph_info::{is_decimal_number, is_letter};
use crate::ot_map::OtShapePlan;
use crate::script_items::glyph_info::is_unicode_space;
use crate::script_items::item::is_unicode_mark;
use crate::unicode_tables::mirrors;

/// Replaces each character by its mirror image in text that runs backward, and by its vertical form in
/// vertical lines, where the font has a glyph for that. A character that is not mirrored so has the
/// feature of mirrored forms; a font that has vertical forms itself replaces characters by them later.
///
/// # Requires
///
/// - `buffer.old.have_output ≡ false`
///
/// # Proved
///
/// ```text
/// ensures is { buffer.new ≡ record buffer.old {
///       input = map (rotation.rotated (F.has font.now) plan.now direction) buffer.old.input;
///     } }
/// ensures closed { buffer.new.have_output ≡ false }
/// ensures keeps { KeepsClusters buffer.old buffer.new }
/// ```
#[inline]
pub fn rotate_characters<F: FontFunctions>(
    buffer: &mut hb_buffer_t,
    font: &F,
    plan: &OtShapePlan,
    direction: Direction,
) {
    debug_assert!(!buffer.have_output());
    rotate_all(buffer.info_slice_mut(), font, plan, direction);
}

/// Replaces each of the characters so.
fn rotate_all<F: FontFunctions>(
    infos: &mut [hb_glyph_info_t],
    font: &F,
    plan: &OtShapePlan,
    direction: Direction,
) {
    turn_all(infos, font, plan, direction);
    raise_all(infos, font, plan, direction);
}

/// Replaces each of the characters by its mirror image where the line runs backward.
fn turn_all<F: FontFunctions>(
    infos: &mut [hb_glyph_info_t],
    font: &F,
    plan: &OtShapePlan,
    direction: Direction,
) {
    if direction.is_forward() {
        return;
    }
    if !are_mirrored(infos) {
        return add_features_to_all(infos, plan.rtlm_mask);
    }
    match mirrors() {
        Some(rows) => mirror_all(infos, font, &rows, plan.rtlm_mask),
        None => {}
    }
}

/// Whether any of the characters may have a mirror image.
fn are_mirrored(infos: &[hb_glyph_info_t]) -> bool {
    infos.iter().any(|info| may_be_mirrored(info))
}

/// Whether a character may have a mirror image: no letter, mark, digit or space has one.
fn may_be_mirrored(info: &hb_glyph_info_t) -> bool {
    !(is_letter_or_mark(info) || is_digit_or_space(info))
}

/// Whether a character is a letter or a mark.
fn is_letter_or_mark(info: &hb_glyph_info_t) -> bool {
    is_letter(info) || is_unicode_mark(info)
}

/// Whether a character is a digit or a space.
fn is_digit_or_space(info: &hb_glyph_info_t) -> bool {
    is_decimal_number(info) || is_unicode_space(info)
}

/// Gives each of the characters these features too.
fn add_features_to_all(infos: &mut [hb_glyph_info_t], bits: u32) {
    for info in infos.iter_mut() {
        add_features(info, bits);
    }
}

/// Gives a character these features too.
fn add_features(info: &mut hb_glyph_info_t, bits: u32) {
    info.mask |= bits;
}

/// Replaces each character by its mirror image, or gives it the feature of mirrored forms.
fn mirror_all<F: FontFunctions>(
    infos: &mut [hb_glyph_info_t],
    font: &F,
    mirrors: &Mirrors,
    rtlm: u32,
) {
    for info in infos.iter_mut() {
        mirror(info, font, mirrors, rtlm);
    }
}

/// Replaces a character by its mirror image, or gives it the feature of mirrored forms.
fn mirror<F: FontFunctions>(info: &mut hb_glyph_info_t, font: &F, mirrors: &Mirrors, rtlm: u32) {
    match if_there(font, mirror_image(info, mirrors)) {
        Some(image) => info.glyph_id = image,
        None => add_features(info, rtlm),
    }
}

/// The mirror image of a character.
fn mirror_image(info: &hb_glyph_info_t, mirrors: &Mirrors) -> Option<char> {
    if !may_be_mirrored(info) {
        return None;
    }
    match char::from_u32(info.glyph_id) {
        Some(character) => character.mirrored(mirrors),
        None => None,
    }
}

/// Replaces each of the characters by its vertical form where the line is vertical, and the font has
/// none itself.
fn raise_all<F: FontFunctions>(
    infos: &mut [hb_glyph_info_t],
    font: &F,
    plan: &OtShapePlan,
    direction: Direction,
) {
    if direction.is_horizontal() || plan.has_vert {
        return;
    }
    make_all_vertical(infos, font);
}

/// Replaces each character by its vertical form.
fn make_all_vertical<F: FontFunctions>(infos: &mut [hb_glyph_info_t], font: &F) {
    for info in infos.iter_mut() {
        make_vertical(info, font);
    }
}

/// Replaces a character by its vertical form.
fn make_vertical<F: FontFunctions>(info: &mut hb_glyph_info_t, font: &F) {
    match if_there(font, vertical_form(info)) {
        Some(form) => info.glyph_id = form,
        None => {}
    }
}

/// The form of a character in vertical lines.
fn vertical_form(info: &hb_glyph_info_t) -> Option<char> {
    match char::from_u32(info.glyph_id) {
        Some(character) => character.vertical(),
        None => None,
    }
}

/// A form of a character, if the font has a glyph for it.
fn if_there<F: FontFunctions>(font: &F, form: Option<char>) -> Option<u32> {
    match form {
        Some(form) => if_known(font, form as u32),
        None => None,
    }
}

/// A code point, if the font has a glyph for it.
fn if_known<F: FontFunctions>(font: &F, code: u32) -> Option<u32> {
    if font.nominal_glyph(code).is_some() {
        Some(code)
    } else {
        None
    }
}
