// Written by tools/plain_rust from crates/script_joining. Do not edit.

//! The forms of all letters of a text.

use crate::glyph::hb_glyph_info_t;
use crate::script_items::item::{is_mark_or_format, set_shaper_byte, shaper_byte};
use crate::script_joining::joining::form::{ArabicAction, form_between};
use crate::script_joining::joining::kind::JoiningType::*;
use crate::script_joining::joining::kind::{JoiningType, joining_type};

/// Lets each item keep the type of its character.
pub(crate) fn set_types(infos: &mut [hb_glyph_info_t]) {
    for info in infos.iter_mut() {
        set_type(info);
    }
}

/// Lets an item keep the type of its character.
fn set_type(info: &mut hb_glyph_info_t) {
    let kind = joining_type(info.glyph_id, is_mark_or_format(info));
    set_shaper_byte(info, kind.number());
}

/// The type that an item keeps.
pub(crate) fn kind(info: &hb_glyph_info_t) -> JoiningType {
    JoiningType::of_number(shaper_byte(info))
}

/// The nearest letter of a list that is not transparent, and where it has none the nearest beyond.
fn first_letter(infos: &[hb_glyph_info_t], beyond: JoiningType) -> JoiningType {
    for info in infos {
        let kind = kind(info);
        if kind != Transparent {
            return kind;
        }
    }
    beyond
}

/// Lets each item keep its form in place of its type, where `before` is the nearest letter before the
/// text and `beyond` the nearest behind it.
pub(crate) fn set_forms(infos: &mut [hb_glyph_info_t], before: JoiningType, beyond: JoiningType) {
    let mut nearest = before;
    for i in 0..infos.len() {
        let own = kind(&infos[i]);
        let form = form_at(infos, i, nearest, own, beyond);
        set_shaper_byte(&mut infos[i], form.number());
        nearest = own.or_beyond(nearest);
    }
}

/// The form of the letter at a place. What is behind it is only looked at where its form depends on it.
///
/// # Requires
///
/// - `place < length infos.now`
fn form_at(
    infos: &[hb_glyph_info_t],
    place: usize,
    before: JoiningType,
    own: JoiningType,
    beyond: JoiningType,
) -> ArabicAction {
    debug_assert!(place < infos.len());
    match own {
        Left | Dual | Alaph => {
            let after = first_letter(&infos[place + 1..], beyond);
            form_between(before, own, after)
        }
        NonJoining | Right | DalathRish | Transparent => form_between(before, own, NonJoining),
    }
}
