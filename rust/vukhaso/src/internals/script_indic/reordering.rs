// Written by tools/plain_rust from crates/script_indic. Do not edit.

//! The order of a text before the basic features.

use crate::buffer::{hb_buffer_t, hb_glyph_info_t};
use crate::common::script;
use crate::memory::AllocError;
use crate::script_indic::base::{Base, find_base};
use crate::script_indic::initial_masks::{mask_pref, set_masks};
use crate::script_indic::initial_order::set_positions;
use crate::script_indic::plan::{BROKEN, ConsonantForms, IndicPlan};
use crate::script_syllables::clusters::merge;
use crate::script_syllables::dotted_circle::{CircleKind, insert_dotted_circles};
use crate::script_syllables::font::{FontForms, FormFeature};
use crate::script_syllables::item::{is_halant, is_one, position, set_position};
use crate::script_syllables::moves::move_first;
use crate::script_syllables::sorting::sort_syllable;
use crate::script_syllables::syllables::{kind_at, syllable, within};
use crate::script_syllables::{Category, Position};
use core::ops::Range;

/// The kinds of syllables that are reordered come before this one, but for symbols.
const SYMBOL: u8 = 3;

const CIRCLE: CircleKind = CircleKind {
    category: Category::DottedCircle as u8,
    position: Position::End,
    repha: Some(Category::Repha as u8),
    broken: BROKEN,
};

/// Puts the glyphs of each syllable in the order in which the basic features find them.
///
/// # Requires
///
/// - `buffer.old.have_output ≡ false`
///
/// # Errors
///
/// `Ok(false)` where the text would become too long.
pub(crate) fn order_initially<F: FontForms>(
    buffer: &mut hb_buffer_t,
    plan: &IndicPlan,
    font: &mut F,
) -> Result<bool, AllocError> {
    debug_assert!(!buffer.have_output());
    if let Some(virama) = plan.virama_glyph(font) {
        place_consonants(buffer, plan.forms, font, virama);
    }
    if !insert_dotted_circles(buffer, font, CIRCLE)? {
        return Ok(false);
    }
    order_syllables(buffer, plan, font)?;
    Ok(true)
}

/// Puts the glyphs of each syllable in order.
///
/// # Requires
///
/// - `buffer.old.have_output ≡ false`
fn order_syllables<F: FontForms>(
    buffer: &mut hb_buffer_t,
    plan: &IndicPlan,
    font: &mut F,
) -> Result<(), AllocError> {
    debug_assert!(!buffer.have_output());
    let mut start = 0;
    for _turn in 0..buffer.len() {
        if start >= buffer.len() {
            break;
        }
        let end = buffer.next_syllable(start);
        if is_reordered(kind_at(buffer.info(), start)) {
            order_syllable(buffer, &(start..end), plan, font)?;
        }
        start = end;
    }
    Ok(())
}

/// Whether syllables of a kind are put in order: those with a base, also where that is a dotted circle.
fn is_reordered(kind: u8) -> bool {
    kind < SYMBOL || kind == BROKEN
}

/// Lets each consonant have the position that its forms in the font give it.
///
/// # Requires
///
/// - `buffer.old.have_output ≡ false`
fn place_consonants<F: FontForms>(
    buffer: &mut hb_buffer_t,
    forms: ConsonantForms,
    font: &mut F,
    virama: u32,
) {
    debug_assert!(!buffer.have_output());
    place_all(buffer.info_slice_mut(), forms, font, virama);
}

/// Does that in a list.
fn place_all<F: FontForms>(
    infos: &mut [hb_glyph_info_t],
    forms: ConsonantForms,
    font: &mut F,
    virama: u32,
) {
    for place in 0..infos.len() {
        if position(&infos[place]) == Position::Base {
            let own = consonant_position(forms, font, infos[place].glyph_id, virama);
            set_position(&mut infos[place], own);
        }
    }
}

/// The position of a consonant by its forms: the font may have rules with the halant before it, as the
/// new specification wants, or behind it, as the old one does.
fn consonant_position<F: FontForms>(
    forms: ConsonantForms,
    font: &mut F,
    consonant: u32,
    virama: u32,
) -> Position {
    let glyphs = [virama, consonant, virama];
    if forms.blwf && has_form(font, FormFeature::Blwf, &glyphs)
        || forms.vatu && has_form(font, FormFeature::Vatu, &glyphs)
    {
        Position::Below
    } else if forms.pstf && has_form(font, FormFeature::Pstf, &glyphs)
        || forms.pref && has_form(font, FormFeature::Pref, &glyphs)
    {
        Position::Post
    } else {
        Position::Base
    }
}

/// Whether the font has a form of a consonant between two halants, with one of them.
fn has_form<F: FontForms>(font: &mut F, feature: FormFeature, glyphs: &[u32; 3]) -> bool {
    font.would_substitute(feature, &glyphs[..2]) || font.would_substitute(feature, &glyphs[1..])
}

/// Puts the glyphs of a syllable in order, and says which features each has.
///
/// # Requires
///
/// - `buffer.old.have_output ≡ false`
fn order_syllable<F: FontForms>(
    buffer: &mut hb_buffer_t,
    range: &Range<usize>,
    plan: &IndicPlan,
    font: &mut F,
) -> Result<(), AllocError> {
    debug_assert!(!buffer.have_output());
    put_joiner_first(buffer, range, plan);
    let base = find_base(syllable(buffer.info(), range), plan, |glyphs| {
        font.would_substitute(FormFeature::Rphf, glyphs)
    });
    place_items(buffer, range, &base, plan);
    let base = sort_syllable(buffer, range, plan.is_old_spec)?;
    mask_items(buffer, range, base, plan, font);
    Ok(())
}

/// Gives each item of a syllable its position.
///
/// # Requires
///
/// - `buffer.old.have_output ≡ false`
fn place_items(buffer: &mut hb_buffer_t, range: &Range<usize>, base: &Base, plan: &IndicPlan) {
    debug_assert!(!buffer.have_output());
    place_in(buffer.info_slice_mut(), range, base, plan);
}

/// Does that in a list.
fn place_in(infos: &mut [hb_glyph_info_t], range: &Range<usize>, base: &Base, plan: &IndicPlan) {
    let range = within(range, infos.len());
    set_positions(&mut infos[range.start..range.end], base, plan);
}

/// Says which features each item of a syllable has.
///
/// # Requires
///
/// - `buffer.old.have_output ≡ false`
fn mask_items<F: FontForms>(
    buffer: &mut hb_buffer_t,
    range: &Range<usize>,
    base: usize,
    plan: &IndicPlan,
    font: &mut F,
) {
    debug_assert!(!buffer.have_output());
    mask_in(buffer.info_slice_mut(), range, base, plan, font);
}

/// Does that in a list.
fn mask_in<F: FontForms>(
    infos: &mut [hb_glyph_info_t],
    range: &Range<usize>,
    base: usize,
    plan: &IndicPlan,
    font: &mut F,
) {
    let range = within(range, infos.len());
    set_masks(&mut infos[range.start..range.end], base, plan);
    mask_pref(&mut infos[range.start..range.end], base, plan, font);
}

/// Takes RA, a halant and a joiner at the start of a Kannada syllable for RA, a joiner and a halant, as
/// old texts have them.
///
/// # Requires
///
/// - `buffer.old.have_output ≡ false`
fn put_joiner_first(buffer: &mut hb_buffer_t, range: &Range<usize>, plan: &IndicPlan) {
    debug_assert!(!buffer.have_output());
    if plan.is(script::KANNADA) && begins_with_joiner(syllable(buffer.info(), range)) {
        let start = range.start.saturating_add(1);
        let end = range.start.saturating_add(3);
        merge(buffer, start, end);
        move_first(buffer, start, end);
    }
}

/// Whether a syllable begins with RA, a halant and a joiner.
fn begins_with_joiner(syllable: &[hb_glyph_info_t]) -> bool {
    match syllable {
        [ra, halant, joiner, ..] => {
            is_one(ra, Category::Ra) && is_halant(halant) && is_one(joiner, Category::Joiner)
        }
        _ => false,
    }
}
