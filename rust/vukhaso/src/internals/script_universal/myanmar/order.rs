// Written by tools/plain_rust from crates/script_universal. Do not edit.

//! The order of the glyphs of Myanmar syllables, before the basic features.

use crate::buffer::{hb_buffer_t, hb_glyph_info_t};
use crate::passes::normalization::{MarkClasses, order_run};
use crate::script_syllables::item::position;
use crate::script_syllables::left_matras::turn_left_matras;
use crate::script_syllables::reordering::SyllableOrder;
use crate::script_syllables::syllables::{kind_at, within};
use crate::script_universal::myanmar::plan::MyanmarShaper;
use crate::script_universal::myanmar::positions::set_positions;
use crate::script_universal::pauses::BROKEN;
use core::ops::Range;

impl SyllableOrder for MyanmarShaper {
    fn reorder_syllable(&self, buffer: &mut hb_buffer_t, range: &Range<usize>) {
        if kind_at(buffer.info(), range.start) <= BROKEN {
            order_syllable(buffer, range);
        }
    }
}

/// Puts the glyphs of a syllable in the order of their positions, and vowel signs on the left into
/// reverse order.
///
/// # Requires
///
/// - `buffer.old.have_output ≡ false`
fn order_syllable(buffer: &mut hb_buffer_t, range: &Range<usize>) {
    debug_assert!(!buffer.have_output());
    place_items(buffer, range);
    move_items(buffer, range);
    turn_matras(buffer, range);
}

/// The positions of items, by which they are put in order as marks are by their classes.
struct Positions;

///
/// # Proved
///
/// ```text
/// ghost classes = { λ _. position_number }
/// ghost alike = { λ _ g. refl }
/// ```
impl MarkClasses for Positions {
    fn class_of(&self, info: &hb_glyph_info_t) -> u16 {
        position_number(info)
    }
}

/// The number of an item's position.
fn position_number(info: &hb_glyph_info_t) -> u16 {
    u16::from(position(info) as u8)
}

/// Moves the items of a syllable into the order of their positions. Before one moves back, its cluster
/// is merged with those that it passes.
///
/// # Requires
///
/// - `buffer.old.have_output ≡ false`
fn move_items(buffer: &mut hb_buffer_t, range: &Range<usize>) {
    debug_assert!(!buffer.have_output());
    if range.start >= range.end || range.end > buffer.len() {
        return;
    }
    order_run(buffer, &Positions, range.start, range.end);
}

/// Gives each item of a syllable its position.
///
/// # Requires
///
/// - `buffer.old.have_output ≡ false`
fn place_items(buffer: &mut hb_buffer_t, range: &Range<usize>) {
    debug_assert!(!buffer.have_output());
    place_in(buffer.info_slice_mut(), range);
}

/// Does that in a list.
fn place_in(infos: &mut [hb_glyph_info_t], range: &Range<usize>) {
    let range = within(range, infos.len());
    set_positions(&mut infos[range.start..range.end]);
}

/// Puts vowel signs on the left of a syllable into reverse order.
///
/// # Requires
///
/// - `buffer.old.have_output ≡ false`
fn turn_matras(buffer: &mut hb_buffer_t, range: &Range<usize>) {
    debug_assert!(!buffer.have_output());
    turn_in(buffer.info_slice_mut(), range);
}

/// Does that in a list.
fn turn_in(infos: &mut [hb_glyph_info_t], range: &Range<usize>) {
    let range = within(range, infos.len());
    turn_left_matras(&mut infos[range.start..range.end]);
}
