// Written by tools/plain_rust from crates/script_universal. Do not edit.

//! The order of the glyphs of Khmer syllables, before the basic features.

use crate::buffer::{hb_buffer_t, hb_glyph_info_t};
use crate::script_syllables::Category;
use crate::script_syllables::clusters::merge;
use crate::script_syllables::item::{add_mask, category};
use crate::script_syllables::moves::move_last;
use crate::script_syllables::reordering::SyllableOrder;
use crate::script_syllables::syllables::kind_at;
use crate::script_universal::khmer::plan::KhmerPlan;
use crate::script_universal::pauses::BROKEN;
use core::ops::Range;

/// How many coengs of a syllable there may be before one that is looked at.
const MOST_COENGS: usize = 2;

impl SyllableOrder for KhmerPlan {
    fn reorder_syllable(&self, buffer: &mut hb_buffer_t, range: &Range<usize>) {
        if kind_at(buffer.info(), range.start) <= BROKEN {
            order_syllable(buffer, range, self);
        }
    }
}

/// Puts the glyphs of a syllable in order: vowel signs on the left, and a coeng with a RO, go to its
/// start.
///
/// # Requires
///
/// - `buffer.old.have_output ≡ false`
fn order_syllable(buffer: &mut hb_buffer_t, range: &Range<usize>, plan: &KhmerPlan) {
    debug_assert!(!buffer.have_output());
    mask_behind_first(buffer, range, plan);
    let mut coengs = 0;
    for place in range.start.saturating_add(1)..range.end {
        coengs = order_part(buffer, range, place, coengs, plan);
    }
}

/// Moves what stands at a place of a syllable to its start, if it is a vowel sign on the left, or a
/// coeng with a RO. `coengs` counts the coengs before it; the count with this one.
///
/// # Requires
///
/// - `buffer.old.have_output ≡ false`
fn order_part(
    buffer: &mut hb_buffer_t,
    range: &Range<usize>,
    place: usize,
    coengs: usize,
    plan: &KhmerPlan,
) -> usize {
    debug_assert!(!buffer.have_output());
    match part_at(buffer.info(), place, range.end) {
        Part::VowelPre => {
            move_to_start(buffer, range.start, place, 1);
            coengs
        }
        Part::CoengRo if coengs <= MOST_COENGS => {
            move_coeng_ro(buffer, range, place, plan);
            MOST_COENGS
        }
        Part::Coeng if coengs <= MOST_COENGS => coengs + 1,
        Part::Coeng | Part::CoengRo | Part::Other => coengs,
    }
}

/// Gives the items behind the first of a syllable the features of forms below, above and behind the
/// base.
///
/// # Requires
///
/// - `buffer.old.have_output ≡ false`
fn mask_behind_first(buffer: &mut hb_buffer_t, range: &Range<usize>, plan: &KhmerPlan) {
    debug_assert!(!buffer.have_output());
    let mask = plan.blwf | plan.abvf | plan.pstf;
    let start = range.start.saturating_add(1);
    add_mask(buffer.info_slice_mut(), start, range.end, mask);
}

/// What stands at a place of a syllable.
#[derive(Clone, Copy, PartialEq, Eq, Debug)]
enum Part {
    /// A vowel sign on the left.
    VowelPre,
    /// A coeng before a RO.
    CoengRo,
    /// A coeng before another letter.
    Coeng,
    /// Anything else.
    Other,
}

/// What stands at a place of a syllable.
fn part_at(infos: &[hb_glyph_info_t], place: usize, end: usize) -> Part {
    match infos.get(place..end) {
        Some([first, second, ..]) if category(first) == Category::Halant => {
            if category(second) == Category::Ra {
                Part::CoengRo
            } else {
                Part::Coeng
            }
        }
        Some([first, ..]) if category(first) == Category::VowelPre => Part::VowelPre,
        _ => Part::Other,
    }
}

/// Moves a coeng and a RO from a place of a syllable to its start, with their masks.
///
/// # Requires
///
/// - `buffer.old.have_output ≡ false`
fn move_coeng_ro(buffer: &mut hb_buffer_t, range: &Range<usize>, place: usize, plan: &KhmerPlan) {
    debug_assert!(!buffer.have_output());
    mask_coeng_ro(buffer, place, range.end, plan);
    move_to_start(buffer, range.start, place, 2);
}

/// Sets the masks of a coeng and a RO at a place, and of what stands behind them.
///
/// # Requires
///
/// - `buffer.old.have_output ≡ false`
fn mask_coeng_ro(buffer: &mut hb_buffer_t, place: usize, end: usize, plan: &KhmerPlan) {
    debug_assert!(!buffer.have_output());
    set_coeng_masks(buffer.info_slice_mut(), place, end, plan);
}

/// Sets these masks in a list.
fn set_coeng_masks(infos: &mut [hb_glyph_info_t], place: usize, end: usize, plan: &KhmerPlan) {
    let behind = place.saturating_add(2);
    add_mask(infos, place, behind, plan.pref);
    add_mask(infos, behind, end, plan.cfar);
}

/// Moves so many items from a place to the start of their syllable, all in one cluster.
///
/// # Requires
///
/// - `buffer.old.have_output ≡ false`
fn move_to_start(buffer: &mut hb_buffer_t, start: usize, place: usize, count: usize) {
    debug_assert!(!buffer.have_output());
    let end = place.saturating_add(count);
    merge(buffer, start, end);
    move_last(buffer, start, end, count);
}
