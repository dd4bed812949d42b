// Written by tools/plain_rust from crates/script_universal. Do not edit.

//! The order of the glyphs of syllables, after the basic features.

use crate::buffer::{hb_buffer_t, hb_glyph_info_t};
use crate::script_syllables::clusters::merge;
use crate::script_syllables::moves::{move_first, move_last};
use crate::script_syllables::reordering::SyllableOrder;
use crate::script_syllables::syllables::{kind_at, syllable};
use crate::script_universal::universal::item::{is, is_behind_base, is_halant};
use crate::script_universal::universal::plan::{BROKEN, UniversalPlan};
use crate::universal_categories::UniversalCategory;
use core::ops::Range;

/// The last kind of syllables of letters, and the kind of symbols.
const STANDARD: u8 = 2;

const SYMBOL: u8 = 5;

impl SyllableOrder for UniversalPlan {
    fn reorder_syllable(&self, buffer: &mut hb_buffer_t, range: &Range<usize>) {
        if is_reordered(kind_at(buffer.info(), range.start)) {
            move_repha(buffer, range);
            move_fronts(buffer, range);
        }
    }
}

/// Whether the glyphs of syllables of a kind are put in order.
fn is_reordered(kind: u8) -> bool {
    kind <= STANDARD || kind == SYMBOL || kind == BROKEN
}

/// Moves a reph at the start of a syllable before the first glyph that stands behind the base, or to
/// the end.
///
/// # Requires
///
/// - `buffer.old.have_output ≡ false`
fn move_repha(buffer: &mut hb_buffer_t, range: &Range<usize>) {
    debug_assert!(!buffer.have_output());
    if let Some(place) = repha_place(syllable(buffer.info(), range)) {
        let end = range.start.saturating_add(place).saturating_add(1);
        merge(buffer, range.start, end);
        move_first(buffer, range.start, end);
    }
}

/// The place of a reph, if a syllable begins with one.
fn repha_place(syllable: &[hb_glyph_info_t]) -> Option<usize> {
    if syllable.len() < 2 || !is(syllable.first()?, UniversalCategory::Repha) {
        return None;
    }
    for place in 1..syllable.len() {
        if is_behind_base(&syllable[place]) || is_halant(&syllable[place]) {
            return Some(place - 1);
        }
    }
    Some(syllable.len() - 1)
}

/// Moves vowel signs in front to the start of a syllable, or behind the last halant before them.
///
/// # Requires
///
/// - `buffer.old.have_output ≡ false`
fn move_fronts(buffer: &mut hb_buffer_t, range: &Range<usize>) {
    debug_assert!(!buffer.have_output());
    let mut to = range.start;
    for place in range.start..range.end {
        match buffer.info().get(place) {
            Some(info) if is_halant(info) => to = place.saturating_add(1),
            Some(info) if stands_in_front(info) && to < place => {
                let end = place.saturating_add(1);
                merge(buffer, to, end);
                move_last(buffer, to, end, 1);
            }
            _ => {}
        }
    }
}

/// Whether an item is a vowel sign in front, or a modifier of one; of several that a lookup made of it,
/// the first.
fn stands_in_front(info: &hb_glyph_info_t) -> bool {
    let is_first = info.lig_props() & 0x10 != 0 || info.lig_props() & 0xF == 0;
    is_first
        && (is(info, UniversalCategory::VowelPre) || is(info, UniversalCategory::VowelModifierPre))
}
