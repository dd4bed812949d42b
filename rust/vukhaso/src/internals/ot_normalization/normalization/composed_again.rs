// Written by tools/plain_rust from crates/ot_normalization. Do not edit.

//! Characters that are taken apart, and composed again only as the text has marks.

use super::pairs::{Composing, composite_of};
use super::parts::parts_of;
use crate::buffer::{hb_buffer_t, hb_glyph_info_t};
use crate::font_functions::FontFunctions;
use crate::script_items::item::is_unicode_mark;
use crate::script_items::{Tie, Ties, keep_tied};
use crate::script_shapers::{NormalizationMode, ScriptPlan};

/// Marks as unsafe to break what lies between such a character and a mark, where the text has one: in a
/// part without it would stay apart.
///
/// # Requires
///
/// - `buffer.old.have_output ≡ false`
pub(crate) fn keep_composed_again<F: FontFunctions>(
    buffer: &mut hb_buffer_t,
    font: &F,
    script: &ScriptPlan,
    has_marks: bool,
) {
    debug_assert!(!buffer.have_output());
    if has_marks && script.shaper.normalization_mode() == NormalizationMode::Decomposed {
        let composing = Composing::new(font, script);
        keep_tied(buffer, &composing);
    }
}

impl<F: FontFunctions> Ties for Composing<'_, F> {
    fn tie_of(&self, infos: &[hb_glyph_info_t], place: usize) -> Tie {
        tie_in(self, infos, place)
    }
}

/// A mark that does not begin the text is an anchor, and such a character hangs on it, unless it has a
/// mark of its own.
fn tie_in<F: FontFunctions>(
    composing: &Composing<F>,
    infos: &[hb_glyph_info_t],
    place: usize,
) -> Tie {
    let Some(info) = infos.get(place) else {
        return Tie::Loose;
    };
    if is_unicode_mark(info) {
        return if place > 0 { Tie::Anchor } else { Tie::Loose };
    }
    let has_mark = match infos.get(place.saturating_add(1)) {
        Some(next) => is_unicode_mark(next),
        None => false,
    };
    if !has_mark && is_composed_again(composing, info.glyph_id) {
        Tie::Hanging
    } else {
        Tie::Loose
    }
}

/// Whether the parts of a character compose to it again, with a font that has it and the second part.
fn is_composed_again<F: FontFunctions>(composing: &Composing<F>, character: u32) -> bool {
    match parts_of(composing.shaper, character) {
        Some((first, second)) => {
            composing.font.nominal_glyph(second).is_some()
                && composite_of_codes(composing, first, second).unwrap_or(0) == character
        }
        None => false,
    }
}

/// What two code points compose to, if the font has it.
fn composite_of_codes<F: FontFunctions>(composing: &Composing<F>, a: u32, b: u32) -> Option<u32> {
    match char::from_u32(a) {
        Some(first) => match char::from_u32(b) {
            Some(second) => composite_of(composing, first, second),
            None => None,
        },
        None => None,
    }
}
