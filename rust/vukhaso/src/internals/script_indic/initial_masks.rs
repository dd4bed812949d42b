// Written by tools/plain_rust from crates/script_indic. Do not edit.

//! Which basic features each item of a syllable has.

use crate::buffer::hb_glyph_info_t;
use crate::common::script;
use crate::script_indic::item::is_consonant;
use crate::script_indic::plan::IndicPlan;
use crate::script_syllables::font::{FontForms, FormFeature};
use crate::script_syllables::item::{add_mask, category, is_joiner, position};
use crate::script_syllables::{Category, Position};

/// Sets the masks of a syllable's items, by where they stand around its base.
pub(crate) fn set_masks(syllable: &mut [hb_glyph_info_t], base: usize, plan: &IndicPlan) {
    let masks = plan.masks;
    let mut before = masks.half;
    if !plan.is_old_spec && plan.configuration.has_below_forms_before_base {
        before |= masks.blwf;
    }
    mask_reph(syllable, masks.rphf);
    add_mask(syllable, 0, base, before);
    let behind = masks.blwf | masks.abvf | masks.pstf;
    add_mask(syllable, base.saturating_add(1), syllable.len(), behind);
    if plan.is_old_spec && plan.is(script::DEVANAGARI) {
        mask_vattu(syllable, base, masks.blwf);
    }
    unmask_half_forms(syllable, masks.half);
}

/// Sets the mask of a reph.
fn mask_reph(syllable: &mut [hb_glyph_info_t], mask: u32) {
    let count = match syllable
        .iter()
        .position(|info| position(info) != Position::Reph)
    {
        Some(count) => count,
        None => syllable.len(),
    };
    add_mask(syllable, 0, count, mask);
}

/// Lets each RA with a halant before the base have a form below it, unless a joiner asks for another
/// one: fonts of the old specification make a vattu of it.
fn mask_vattu(syllable: &mut [hb_glyph_info_t], base: usize, mask: u32) {
    for place in 0..syllable.len() {
        if place + 1 < base && is_vattu(syllable, place, base) && place + 1 < syllable.len() {
            add_mask(syllable, place, place + 2, mask);
        }
    }
}

/// Whether a RA and a halant stand at a place, with no joiner behind them.
fn is_vattu(syllable: &[hb_glyph_info_t], place: usize, base: usize) -> bool {
    match syllable.get(place..) {
        Some([ra, halant, behind @ ..]) => {
            category(ra) == Category::Ra
                && category(halant) == Category::Halant
                && (place + 2 == base
                    || behind
                        .first()
                        .is_none_or(|info| category(info) != Category::Joiner))
        }
        _ => false,
    }
}

/// Takes half forms from the items before each non-joiner, up to the consonant before it.
fn unmask_half_forms(syllable: &mut [hb_glyph_info_t], mask: u32) {
    let mut unmasks = false;
    for turn in 0..syllable.len() {
        let info = &mut syllable[syllable.len() - 1 - turn];
        if unmasks {
            info.mask &= !mask;
        }
        let is_non_joiner = is_joiner(info) && category(info) == Category::NonJoiner;
        unmasks = is_non_joiner || unmasks && !is_consonant(info);
    }
}

/// Sets the mask of the first halant and RA behind the base that the font puts before it.
pub(crate) fn mask_pref<F: FontForms>(
    syllable: &mut [hb_glyph_info_t],
    base: usize,
    plan: &IndicPlan,
    font: &mut F,
) {
    let mask = plan.masks.pref;
    if mask == 0 || syllable.len() <= base.saturating_add(2) {
        return;
    }
    for place in base.saturating_add(1)..syllable.len().saturating_sub(1) {
        let glyphs = [syllable[place].glyph_id, syllable[place + 1].glyph_id];
        if font.would_substitute(FormFeature::Pref, &glyphs) {
            add_mask(syllable, place, place + 2, mask);
            return;
        }
    }
}
