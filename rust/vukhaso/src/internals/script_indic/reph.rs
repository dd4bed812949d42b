// Written by tools/plain_rust from crates/script_indic. Do not edit.

//! Rephs, after the basic features: from the start of a syllable they move to where they are seen.

use crate::buffer::{hb_buffer_t, hb_glyph_info_t};
use crate::script_indic::configuration::RephPosition;
use crate::script_indic::item::is_matra;
use crate::script_syllables::clusters::merge;
use crate::script_syllables::item::{category, is_halant, is_joiner, is_whole_ligature, position};
use crate::script_syllables::moves::move_first;
use crate::script_syllables::syllables::syllable;
use crate::script_syllables::{Category, Position};
use core::ops::Range;

/// Moves the reph of a syllable to where it is wanted. Where the base is then.
///
/// # Requires
///
/// - `buffer.old.have_output ≡ false`
pub(crate) fn move_reph(
    buffer: &mut hb_buffer_t,
    range: &Range<usize>,
    base: usize,
    wanted: RephPosition,
) -> usize {
    debug_assert!(!buffer.have_output());
    let items = syllable(buffer.info(), range);
    if items.len() < 2 || !begins_with_reph(items) {
        return base;
    }
    let place = new_place(items, base, wanted);
    let end = range.start.saturating_add(place).saturating_add(1);
    merge(buffer, range.start, end);
    move_first(buffer, range.start, end);
    if base > 0 && base <= place {
        base - 1
    } else {
        base
    }
}

/// Whether a syllable begins with a reph: a ligature of RA and a halant, or a character that is one and
/// did not become a ligature.
fn begins_with_reph(syllable: &[hb_glyph_info_t]) -> bool {
    match syllable.first() {
        Some(first) => {
            position(first) == Position::Reph
                && (category(first) == Category::Repha) != is_whole_ligature(first)
        }
        None => false,
    }
}

/// The place that a reph moves to.
fn new_place(syllable: &[hb_glyph_info_t], base: usize, wanted: RephPosition) -> usize {
    if let Some(place) = behind_halant(syllable, base) {
        return place;
    }
    let found = match wanted {
        RephPosition::AfterMain => behind_main(syllable, base),
        RephPosition::AfterSub => behind_below(syllable, base),
        _ => None,
    };
    match found {
        Some(place) => place,
        None => last_place(syllable, base),
    }
}

/// The place of the first halant before the base, or of a joiner behind it.
fn behind_halant(syllable: &[hb_glyph_info_t], base: usize) -> Option<usize> {
    let before = syllable.get(..base)?;
    for place in 1..before.len() {
        if is_halant(&before[place]) {
            let has_joiner = before.get(place + 1).is_some_and(|info| is_joiner(info));
            return Some(if has_joiner { place + 1 } else { place });
        }
    }
    None
}

/// The last place from the base on before the first item that stands further behind it; `None` where
/// there is no base.
fn behind_main(syllable: &[hb_glyph_info_t], base: usize) -> Option<usize> {
    for place in base.saturating_add(1)..syllable.len() {
        if position(&syllable[place]) > Position::AfterMain {
            return Some(place - 1);
        }
    }
    last_of(syllable, base)
}

/// The last place from the base on before the first form behind the base, and before signs; `None`
/// where there is no base.
fn behind_below(syllable: &[hb_glyph_info_t], base: usize) -> Option<usize> {
    for place in base.saturating_add(1)..syllable.len() {
        if matches!(
            position(&syllable[place]),
            Position::Post | Position::AfterPost | Position::Sign
        ) {
            return Some(place - 1);
        }
    }
    last_of(syllable, base)
}

/// The last place of a syllable; `None` where there is no base.
fn last_of(syllable: &[hb_glyph_info_t], base: usize) -> Option<usize> {
    if base < syllable.len() {
        Some(syllable.len() - 1)
    } else {
        None
    }
}

/// The last place before the modifiers at the end, and before a halant that stands there behind a vowel
/// sign.
fn last_place(syllable: &[hb_glyph_info_t], base: usize) -> usize {
    let mut place = last_unsigned(syllable);
    if !syllable.get(place).is_some_and(|info| is_halant(info)) {
        return place;
    }
    for (at, info) in syllable.iter().enumerate() {
        if base < at && at < place && is_matra(info) {
            place -= 1;
        }
    }
    place
}

/// The place of the last item that is no modifier; 0 where there is none.
fn last_unsigned(syllable: &[hb_glyph_info_t]) -> usize {
    for turn in 0..syllable.len() {
        let place = syllable.len() - 1 - turn;
        if position(&syllable[place]) != Position::Sign {
            return place;
        }
    }
    0
}
