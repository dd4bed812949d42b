// Written by tools/plain_rust from crates/script_indic. Do not edit.

//! The order of a text after the basic features.

use crate::buffer::{hb_buffer_t, hb_glyph_info_t};
use crate::glyph::hb_gc::{
    RB_UNICODE_GENERAL_CATEGORY_FORMAT, RB_UNICODE_GENERAL_CATEGORY_NON_SPACING_MARK,
};
use crate::script_indic::final_base::{FinalBase, find_final_base};
use crate::script_indic::matras::move_matras;
use crate::script_indic::plan::IndicPlan;
use crate::script_indic::pref::move_pref;
use crate::script_indic::reph::move_reph;
use crate::script_items::item::general_category;
use crate::script_syllables::item::{
    add_mask, forget_ligature, is_ligated, is_multiplied, position, set_category,
};
use crate::script_syllables::reordering::{SyllableOrder, reorder_syllables};
use crate::script_syllables::syllables::within;
use crate::script_syllables::{Category, Position};
use core::ops::Range;

/// Puts the glyphs of each syllable in order. `virama` is the glyph of the halant.
///
/// # Requires
///
/// - `buffer.old.have_output ≡ false`
pub(crate) fn order_finally(buffer: &mut hb_buffer_t, plan: &IndicPlan, virama: Option<u32>) {
    debug_assert!(!buffer.have_output());
    reorder_syllables(buffer, &FinalOrder { plan, virama });
}

/// The order of syllables after the basic features.
#[derive(Clone, Copy, Debug)]
struct FinalOrder<'a> {
    plan: &'a IndicPlan,
    /// The glyph of the halant.
    virama: Option<u32>,
}

impl<'a> SyllableOrder for FinalOrder<'a> {
    fn reorder_syllable(&self, buffer: &mut hb_buffer_t, range: &Range<usize>) {
        order_syllable(buffer, range, self.plan, self.virama);
    }
}

/// Puts the glyphs of a syllable in order.
///
/// # Requires
///
/// - `buffer.old.have_output ≡ false`
fn order_syllable(
    buffer: &mut hb_buffer_t,
    range: &Range<usize>,
    plan: &IndicPlan,
    virama: Option<u32>,
) {
    debug_assert!(!buffer.have_output());
    let base = find_base(buffer, range, plan, virama);
    let place = move_matras(buffer, range, base.place, plan);
    let place = move_reph(buffer, range, place, plan.configuration.reph_position);
    move_pref(buffer, range, &FinalBase { place, ..base }, plan);
    mark_start_of_word(buffer, range.start, plan.masks.init);
}

/// Finds the halants of a syllable and its base again.
///
/// # Requires
///
/// - `buffer.old.have_output ≡ false`
fn find_base(
    buffer: &mut hb_buffer_t,
    range: &Range<usize>,
    plan: &IndicPlan,
    virama: Option<u32>,
) -> FinalBase {
    debug_assert!(!buffer.have_output());
    find_base_in(buffer.info_slice_mut(), range, plan, virama)
}

/// Does that in a list.
fn find_base_in(
    infos: &mut [hb_glyph_info_t],
    range: &Range<usize>,
    plan: &IndicPlan,
    virama: Option<u32>,
) -> FinalBase {
    let range = within(range, infos.len());
    let syllable = &mut infos[range.start..range.end];
    if let Some(virama) = virama {
        find_halants(syllable, virama);
    }
    find_final_base(syllable, plan)
}

/// Takes each glyph of the halant for one, where it came of a ligature that was taken apart.
fn find_halants(syllable: &mut [hb_glyph_info_t], virama: u32) {
    for place in 0..syllable.len() {
        let info = &mut syllable[place];
        if info.glyph_id == virama && is_ligated(info) && is_multiplied(info) {
            set_category(info, Category::Halant);
            forget_ligature(info);
        }
    }
}

/// Gives a vowel sign on the left the form that it has at the start of a word, if its syllable is the
/// first of one. The place before is unsafe to break else.
///
/// # Requires
///
/// - `buffer.old.have_output ≡ false`
fn mark_start_of_word(buffer: &mut hb_buffer_t, start: usize, mask: u32) {
    debug_assert!(!buffer.have_output());
    let infos = buffer.info();
    if !infos
        .get(start)
        .is_some_and(|info| position(info) == Position::PreMatra)
    {
        return;
    }
    if start > 0 && infos.get(start - 1).is_some_and(|info| goes_on(info)) {
        buffer.unsafe_to_break(Some(start - 1), Some(start + 1));
    } else {
        mask_one(buffer, start, mask);
    }
}

/// Gives the item at a place the features of a mask.
///
/// # Requires
///
/// - `buffer.old.have_output ≡ false`
fn mask_one(buffer: &mut hb_buffer_t, place: usize, mask: u32) {
    debug_assert!(!buffer.have_output());
    add_mask(
        buffer.info_slice_mut(),
        place,
        place.saturating_add(1),
        mask,
    );
}

/// Whether the word goes on behind a character: it is a letter, a mark or a format character.
fn goes_on(info: &hb_glyph_info_t) -> bool {
    let category = general_category(info);
    RB_UNICODE_GENERAL_CATEGORY_FORMAT <= category
        && category <= RB_UNICODE_GENERAL_CATEGORY_NON_SPACING_MARK
}
