// Written by tools/plain_rust from crates/script_joining. Do not edit.

//! The masks of letters, by their forms.

use crate::buffer::{hb_buffer_t, hb_glyph_info_t};
use crate::glyph::{CharExt, hb_unicode_general_category_t};
use crate::script_items::item::{set_shaper_byte, shaper_byte};
use crate::script_joining::joining::flags::flag_joins;
use crate::script_joining::joining::forms::{set_forms, set_types};
use crate::script_joining::joining::kind::JoiningType::{self, *};
use crate::script_joining::joining::kind::joining_type;

/// Lets each item keep the form of its letter, and flags the places between letters.
///
/// # Requires
///
/// - `buffer.old.have_output ≡ false`
///
/// # Proved
///
/// ```text
/// ensures { StaysClosed buffer.old buffer.new }
/// ```
#[inline]
pub fn join_letters(buffer: &mut hb_buffer_t) {
    debug_assert!(!buffer.have_output());
    let before = first_type(buffer.context(0)).unwrap_or(NonJoining);
    let behind = first_type(buffer.context(1));
    set_types_in(buffer);
    flag_joins(buffer, before, behind);
    set_forms_in(buffer, before, behind.unwrap_or(NonJoining));
}

/// Lets each item keep the type of its letter.
///
/// # Requires
///
/// - `buffer.old.have_output ≡ false`
fn set_types_in(buffer: &mut hb_buffer_t) {
    debug_assert!(!buffer.have_output());
    set_types(buffer.info_slice_mut());
}

/// Lets each item keep the form of its letter in place of its type.
///
/// # Requires
///
/// - `buffer.old.have_output ≡ false`
fn set_forms_in(buffer: &mut hb_buffer_t, before: JoiningType, behind: JoiningType) {
    debug_assert!(!buffer.have_output());
    set_forms(buffer.info_slice_mut(), before, behind);
}

/// The type of the first of these characters that is not transparent.
fn first_type(characters: &[char]) -> Option<JoiningType> {
    for character in characters {
        let kind = type_of(*character);
        if kind != Transparent {
            return Some(kind);
        }
    }
    None
}

/// The type of a character.
fn type_of(character: char) -> JoiningType {
    joining_type(character as u32, is_transparent(character))
}

/// Whether letters join across the character, if Unicode does not list how it joins.
fn is_transparent(character: char) -> bool {
    matches!(
        character.general_category(),
        hb_unicode_general_category_t::NonspacingMark
            | hb_unicode_general_category_t::EnclosingMark
            | hb_unicode_general_category_t::Format
    )
}

/// Lets each Mongolian variation selector keep the form of the item before it.
///
/// # Requires
///
/// - `buffer.old.have_output ≡ false`
///
/// # Proved
///
/// ```text
/// ensures is { buffer.new ≡ record buffer.old { input = selectors_formed buffer.old.input } }
/// ensures stays { StaysClosed buffer.old buffer.new }
/// ```
#[inline]
pub fn form_variation_selectors(buffer: &mut hb_buffer_t) {
    debug_assert!(!buffer.have_output());
    form_selectors(buffer.info_slice_mut());
}

/// Does that with these items.
fn form_selectors(infos: &mut [hb_glyph_info_t]) {
    for i in 1..infos.len() {
        form_selector(infos, i);
    }
}

/// Lets a Mongolian variation selector keep the form of the item before it.
///
/// # Requires
///
/// - `behind: 0 < place`
/// - `within: place < length infos.old`
fn form_selector(infos: &mut [hb_glyph_info_t], place: usize) {
    debug_assert!(0 < place);
    debug_assert!(place < infos.len());
    let form = shaper_byte(&infos[place - 1]);
    keep_form(&mut infos[place], form);
}

/// Lets the item keep a form, if it is such a selector.
fn keep_form(info: &mut hb_glyph_info_t, form: u8) {
    if matches!(info.glyph_id, 0x180B..=0x180D | 0x180F) {
        set_shaper_byte(info, form);
    }
}
