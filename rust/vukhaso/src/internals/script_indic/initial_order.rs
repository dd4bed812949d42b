// Written by tools/plain_rust from crates/script_indic. Do not edit.

//! Where each item of a syllable belongs, before the basic features.

use crate::buffer::hb_glyph_info_t;
use crate::common::script;
use crate::script_indic::base::Base;
use crate::script_indic::item::{is_consonant, is_matra};
use crate::script_indic::plan::IndicPlan;
use crate::script_syllables::item::{category, position, set_position};
use crate::script_syllables::moves::first_to_end;
use crate::script_syllables::{Category, Position};

/// Gives each item of a syllable its position.
pub(crate) fn set_positions(syllable: &mut [hb_glyph_info_t], base: &Base, plan: &IndicPlan) {
    place_base(syllable, base);
    move_halant(syllable, base.place, plan);
    attach_signs(syllable);
    attach_before_consonants(syllable, base.place);
}

/// Gives the base its position, and the items before it theirs.
fn place_base(syllable: &mut [hb_glyph_info_t], base: &Base) {
    place_before(syllable, base.place);
    place_at(syllable, base.place, Position::Base);
    if base.has_reph {
        place_at(syllable, 0, Position::Reph);
    }
}

/// Gives the items before the base their positions.
fn place_before(syllable: &mut [hb_glyph_info_t], base: usize) {
    for place in 0..base.min(syllable.len()) {
        place_one_before(&mut syllable[place]);
    }
}

/// Gives an item before the base its position.
fn place_one_before(info: &mut hb_glyph_info_t) {
    let own = position(info).min(Position::PreConsonant);
    set_position(info, own);
}

/// Gives the item at a place a position, where there is one.
pub(crate) fn place_at(syllable: &mut [hb_glyph_info_t], place: usize, own: Position) {
    if place < syllable.len() {
        set_position(&mut syllable[place], own);
    }
}

/// Moves the first halant behind the base behind the last consonant, as fonts of the old specification
/// want it. In Kannada that is not done where a halant stands there.
fn move_halant(syllable: &mut [hb_glyph_info_t], base: usize, plan: &IndicPlan) {
    if !plan.is_old_spec {
        return;
    }
    let Some(halant) = first_halant(syllable, base) else {
        return;
    };
    let Some(place) = last_consonant(syllable, halant, plan.is(script::KANNADA)) else {
        return;
    };
    if syllable
        .get(place)
        .is_some_and(|info| category(info) != Category::Halant)
    {
        first_to_end(syllable, halant, place.saturating_add(1));
    }
}

/// The first halant behind the base.
fn first_halant(syllable: &[hb_glyph_info_t], base: usize) -> Option<usize> {
    for place in base.saturating_add(1)..syllable.len() {
        if category(&syllable[place]) == Category::Halant {
            return Some(place);
        }
    }
    None
}

/// The last consonant behind a halant, or in Kannada the last halant, where it stands behind that.
fn last_consonant(syllable: &[hb_glyph_info_t], halant: usize, is_kannada: bool) -> Option<usize> {
    for turn in 0..syllable.len() {
        let place = syllable.len() - 1 - turn;
        if place <= halant {
            return None;
        }
        let info = &syllable[place];
        if is_consonant(info) || is_kannada && category(info) == Category::Halant {
            return Some(place);
        }
    }
    None
}

/// Lets joiners, nuktas, register shifters, medial consonants and halants move with what stands before
/// them.
fn attach_signs(syllable: &mut [hb_glyph_info_t]) {
    let mut last = Position::Start;
    for place in 0..syllable.len() {
        match category(&syllable[place]) {
            Category::Halant => {
                let position = halant_position(syllable, place, last);
                set_position(&mut syllable[place], position);
            }
            Category::Joiner
            | Category::NonJoiner
            | Category::Nukta
            | Category::RegisterShifter
            | Category::ConsonantMedial => set_position(&mut syllable[place], last),
            _ => last = attach_modifier(syllable, place, last),
        }
    }
}

/// The position of a halant behind an item of the position `last`. It does not move with a vowel sign
/// on the left.
fn halant_position(syllable: &[hb_glyph_info_t], place: usize, last: Position) -> Position {
    if last != Position::PreMatra {
        return last;
    }
    for info in syllable.get(..place).unwrap_or(&[]).iter().rev() {
        if position(info) != Position::PreMatra {
            return position(info);
        }
    }
    last
}

/// Lets a modifier before a vowel sign that may stand behind it move with that. The position that signs
/// behind the item move with.
///
/// # Requires
///
/// - `place < length syllable.old`
fn attach_modifier(syllable: &mut [hb_glyph_info_t], place: usize, last: Position) -> Position {
    debug_assert!(place < syllable.len());
    let own = position(&syllable[place]);
    if own == Position::Sign {
        return last;
    }
    if category(&syllable[place]) == Category::MatraPost
        && place > 0
        && category(&syllable[place - 1]) == Category::Modifier
    {
        set_position(&mut syllable[place - 1], own);
    }
    own
}

/// Lets each consonant behind the base take along what stands between it and the consonant or vowel
/// sign before it.
fn attach_before_consonants(syllable: &mut [hb_glyph_info_t], base: usize) {
    let mut last = base;
    for place in base.saturating_add(1)..syllable.len() {
        if is_consonant(&syllable[place]) {
            let own = position(&syllable[place]);
            take_along(syllable, last.saturating_add(1), place, own);
            last = place;
        } else if is_matra(&syllable[place]) {
            last = place;
        }
    }
}

/// Gives the items from `start` to `end` a position, but for modifiers.
fn take_along(syllable: &mut [hb_glyph_info_t], start: usize, end: usize, own: Position) {
    for place in start..end.min(syllable.len()) {
        if position(&syllable[place]) < Position::Sign {
            set_position(&mut syllable[place], own);
        }
    }
}
