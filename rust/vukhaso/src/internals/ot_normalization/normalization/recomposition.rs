// Written by tools/plain_rust from crates/ot_normalization. Do not edit.

//! The third round of normalization: marks are composed with the character before them, where the font has the composed
//! character.

use super::pairs::{Composing, pair_of};
use super::reordering::KeptClasses;
use crate::buffer::{hb_buffer_t, hb_glyph_info_t};
use crate::font_functions::FontFunctions;
use crate::memory::AllocError;
use crate::passes::normalization::next_turn;
use crate::script_items::glyph_info::set_unicode_props;
use crate::script_items::item::modified_combining_class;

/// Composes marks with the last starter before them, unless a mark between blocks them. The first
/// character of the text is a starter, whatever it is.
///
/// # Requires
///
/// - `buffer.old.have_output ≡ false`
pub(crate) fn recompose_all<F: FontFunctions>(
    buffer: &mut hb_buffer_t,
    composing: &Composing<F>,
) -> Result<bool, AllocError> {
    debug_assert!(!buffer.have_output());
    if !buffer.successful() {
        return Ok(false);
    }
    if !has_pair(buffer.info(), composing) {
        return Ok(true);
    }
    // Read for what its contract says: the list is no longer than `max_len`.
    let _ = buffer.len();
    buffer.clear_output();
    let mut starter = None;
    while buffer.lookahead_len() > 0 {
        starter = recompose_next(buffer, composing, starter);
    }
    buffer.sync()
}

/// Whether a character composes with the last starter before it, if none between blocks it.
fn has_pair<F: FontFunctions>(infos: &[hb_glyph_info_t], composing: &Composing<F>) -> bool {
    let mut starter = 0;
    for place in 1..infos.len() {
        let info = &infos[place];
        if infos
            .get(starter)
            .is_some_and(|first| pair_of(composing, first, info).is_some())
        {
            return true;
        }
        if modified_combining_class(info) == 0 {
            starter = place;
        }
    }
    false
}

/// Reads a character, and composes it with the last starter, which stands at this place of the out
/// side, or puts it out. Gives the place of the last starter.
///
/// # Requires
///
/// - `IsAtTurn starter buffer.old`
fn recompose_next<F: FontFunctions>(
    buffer: &mut hb_buffer_t,
    composing: &Composing<F>,
    starter: Option<usize>,
) -> Option<usize> {
    let starter = starter_or_first(buffer, starter);
    let count = buffer.out_len();
    let next = next_turn(buffer, composing, &KeptClasses, starter);
    if buffer.out_len() == count {
        set_composed(buffer, composing.font, next);
    }
    next
}

/// The last starter, or the first character where there is none yet.
///
/// # Requires
///
/// - `IsPlace starter buffer.now`
fn starter_or_first(buffer: &hb_buffer_t, starter: Option<usize>) -> Option<usize> {
    match starter {
        None if buffer.out_len() > 0 => Some(0),
        starter => starter,
    }
}

/// Finds the glyph and the properties of the last starter.
///
/// # Requires
///
/// - `IsReady buffer.old`
fn set_composed<F: FontFunctions>(buffer: &mut hb_buffer_t, font: &F, starter: Option<usize>) {
    let scratch_flags = set_in_out(buffer, font, starter);
    buffer.scratch_flags = scratch_flags;
}

/// Finds those of the last starter, which stands at this place of the out side; the scratch flags that
/// then hold.
fn set_in_out<F: FontFunctions>(buffer: &mut hb_buffer_t, font: &F, starter: Option<usize>) -> u32 {
    let mut scratch_flags = buffer.scratch_flags;
    set_at(buffer.out_info_mut(), font, starter, &mut scratch_flags);
    scratch_flags
}

/// Finds those of the character at a place, if there is one.
fn set_at<F: FontFunctions>(
    infos: &mut [hb_glyph_info_t],
    font: &F,
    place: Option<usize>,
    scratch_flags: &mut u32,
) {
    if let Some(place) = place {
        if place < infos.len() {
            set_character(&mut infos[place], font, scratch_flags);
        }
    }
}

/// Finds the glyph and the properties of a character.
fn set_character<F: FontFunctions>(info: &mut hb_glyph_info_t, font: &F, scratch_flags: &mut u32) {
    let glyph = font.nominal_glyph(info.glyph_id);
    info.set_glyph_index(glyph.map_or(0, |glyph| u32::from(glyph.0)));
    set_unicode_props(info, scratch_flags);
}
