// Written by tools/plain_rust from crates/ot_apply. Do not edit.

//! Which glyphs have a feature (HarfBuzz, `hb_ot_shape_setup_masks`): the masks of fractions, of the forms of letters, and of features
//! that are asked for in a part of the text.

use crate::buffer::{
    Direction, HB_BUFFER_SCRATCH_FLAG_HAS_NON_ASCII, hb_buffer_t, hb_glyph_info_t,
};
use crate::ot_characters::is_decimal_number;
use crate::ot_map::{LayoutPlan, OtShapePlan, PlannedFeature};
use crate::ot_plan::TextPlan;
use crate::text::Feature;

/// The slash of a fraction.
const FRACTION_SLASH: u32 = 0x2044;

/// Sets the masks of a text that is mapped to glyphs, but has its characters yet.
///
/// # Requires
///
/// - `buffer.old.have_output ≡ false`
///
/// # Proved
///
/// ```text
/// ensures set { steps.HasMasks plan.now features.now buffer.old buffer.new }
/// ensures closed { buffer.new.have_output ≡ false }
/// ensures keeps { KeepsClusters buffer.old buffer.new }
/// ```
#[inline]
pub fn set_masks(buffer: &mut hb_buffer_t, plan: &TextPlan, features: &[Feature]) {
    debug_assert!(!buffer.have_output());
    set_fractions(buffer, &plan.shape);
    set_masks_of_script(buffer, plan);
    set_feature_masks(buffer, &plan.shape.layout, features);
}

/// Sets the masks that the shaper of a script gives each glyph by itself.
///
/// # Requires
///
/// - `buffer.old.have_output ≡ false`
fn set_masks_of_script(buffer: &mut hb_buffer_t, plan: &TextPlan) {
    debug_assert!(!buffer.have_output());
    plan.script.setup_masks(buffer);
    plan.syllables.setup_masks(buffer);
}

/// Gives the glyphs of parts of the text the values of features that are asked for there.
///
/// # Requires
///
/// - `buffer.old.have_output ≡ false`
fn set_feature_masks(buffer: &mut hb_buffer_t, layout: &LayoutPlan, features: &[Feature]) {
    debug_assert!(!buffer.have_output());
    for feature in features {
        set_feature_mask(buffer, layout, feature);
    }
}

/// Gives the glyphs of a part of the text the value of a feature, unless it is asked for in the whole
/// text.
///
/// # Requires
///
/// - `buffer.old.have_output ≡ false`
fn set_feature_mask(buffer: &mut hb_buffer_t, layout: &LayoutPlan, feature: &Feature) {
    debug_assert!(!buffer.have_output());
    if feature.is_global() {
        return;
    }
    set_value(buffer, layout, feature);
}

/// Gives the glyphs of a part of the text the value of a feature, if the plan has it.
///
/// # Requires
///
/// - `buffer.old.have_output ≡ false`
fn set_value(buffer: &mut hb_buffer_t, layout: &LayoutPlan, feature: &Feature) {
    debug_assert!(!buffer.have_output());
    match layout.feature(feature.tag) {
        Some(planned) => set_bits(buffer, planned, feature),
        None => {}
    }
}

/// Gives the glyphs of a part of the text the value of a feature, in the bits of the plan's.
///
/// # Requires
///
/// - `buffer.old.have_output ≡ false`
fn set_bits(buffer: &mut hb_buffer_t, planned: &PlannedFeature, feature: &Feature) {
    debug_assert!(!buffer.have_output());
    let bits = planned.bits;
    let value = bits.of_value(feature.value);
    buffer.set_masks(value, bits.mask(), feature.start, feature.end);
}

/// Sets the masks of fractions, if the font makes them. Their slash is past ASCII.
///
/// # Requires
///
/// - `buffer.old.have_output ≡ false`
fn set_fractions(buffer: &mut hb_buffer_t, plan: &OtShapePlan) {
    debug_assert!(!buffer.have_output());
    if buffer.scratch_flags & HB_BUFFER_SCRATCH_FLAG_HAS_NON_ASCII != 0 && plan.has_frac {
        set_each_fraction(buffer, plan);
    }
}

/// Sets the masks of each fraction: digits, a slash, and digits.
///
/// # Requires
///
/// - `buffer.old.have_output ≡ false`
fn set_each_fraction(buffer: &mut hb_buffer_t, plan: &OtShapePlan) {
    debug_assert!(!buffer.have_output());
    let count = buffer.info().len();
    for place in 0..count {
        set_if_slash(buffer, place, plan);
    }
}

/// Sets the masks of a fraction, if its slash is at a place.
///
/// # Requires
///
/// - `buffer.old.have_output ≡ false`
fn set_if_slash(buffer: &mut hb_buffer_t, place: usize, plan: &OtShapePlan) {
    debug_assert!(!buffer.have_output());
    let infos = buffer.info();
    if place < infos.len() && is_slash(&infos[place]) {
        set_fraction(buffer, place, plan);
    }
}

/// Whether a character is the slash of a fraction.
fn is_slash(info: &hb_glyph_info_t) -> bool {
    info.glyph_id == FRACTION_SLASH && !is_decimal_number(info)
}

/// Sets the masks of the fraction whose slash is at a place, if it has digits on both sides. Else the
/// slash is unsafe to concatenate.
///
/// # Requires
///
/// - `closed: buffer.old.have_output ≡ false`
/// - `there: slash < length buffer.old.input`
fn set_fraction(buffer: &mut hb_buffer_t, slash: usize, plan: &OtShapePlan) {
    debug_assert!(!buffer.have_output());
    debug_assert!(slash < buffer.info().len());
    let start = digits_before(buffer.info(), slash);
    let end = digits_behind(buffer.info(), slash + 1);
    if start == slash {
        buffer.unsafe_to_concat(Some(slash), Some(slash + 1));
    } else if end == slash + 1 {
        buffer.unsafe_to_concat(Some(slash), Some(slash + 1));
    } else {
        keep_fraction(buffer, start, end);
        add_fraction(buffer, start, slash, end, plan);
    }
}

/// Marks a fraction as unsafe to break.
///
/// # Requires
///
/// - `closed: buffer.old.have_output ≡ false`
/// - `order: start ≤ end`
/// - `within: end ≤ length buffer.old.input`
fn keep_fraction(buffer: &mut hb_buffer_t, start: usize, end: usize) {
    debug_assert!(!buffer.have_output());
    debug_assert!(start <= end);
    debug_assert!(end <= buffer.info().len());
    buffer.unsafe_to_break(Some(start), Some(end));
}

/// Adds the masks of a fraction to its glyphs.
///
/// # Requires
///
/// - `closed: buffer.old.have_output ≡ false`
/// - `before: start ≤ slash`
/// - `behind: slash < end`
/// - `within: end ≤ length buffer.old.input`
fn add_fraction(
    buffer: &mut hb_buffer_t,
    start: usize,
    slash: usize,
    end: usize,
    plan: &OtShapePlan,
) {
    debug_assert!(!buffer.have_output());
    debug_assert!(start <= slash);
    debug_assert!(slash < end);
    debug_assert!(end <= buffer.info().len());
    let direction = buffer.direction;
    add_fraction_masks(buffer.info_slice_mut(), start, slash, end, plan, direction);
}

/// Adds the masks of a fraction to these glyphs.
///
/// # Requires
///
/// - `before: start ≤ slash`
/// - `behind: slash < end`
/// - `within: end ≤ length infos.old`
fn add_fraction_masks(
    infos: &mut [hb_glyph_info_t],
    start: usize,
    slash: usize,
    end: usize,
    plan: &OtShapePlan,
    direction: Direction,
) {
    debug_assert!(start <= slash);
    debug_assert!(slash < end);
    debug_assert!(end <= infos.len());
    add_mask_from(infos, start, slash, mask_before(plan, direction));
    add_mask_from(infos, slash, slash + 1, plan.frac_mask);
    add_mask_from(infos, slash + 1, end, mask_behind(plan, direction));
}

/// The mask of the digits before a slash: numerators in a line that runs forward.
fn mask_before(plan: &OtShapePlan, direction: Direction) -> u32 {
    if direction.is_forward() {
        plan.numr_mask | plan.frac_mask
    } else {
        plan.frac_mask | plan.dnom_mask
    }
}

/// The mask of the digits behind a slash: denominators in a line that runs forward.
fn mask_behind(plan: &OtShapePlan, direction: Direction) -> u32 {
    if direction.is_forward() {
        plan.frac_mask | plan.dnom_mask
    } else {
        plan.numr_mask | plan.frac_mask
    }
}

/// Adds a mask to those of the glyphs from a place to another one.
///
/// # Requires
///
/// - `order: start ≤ end`
/// - `within: end ≤ length infos.old`
fn add_mask_from(infos: &mut [hb_glyph_info_t], start: usize, end: usize, mask: u32) {
    debug_assert!(start <= end);
    debug_assert!(end <= infos.len());
    add_mask(&mut infos[start..end], mask);
}

/// Adds a mask to that of each glyph.
fn add_mask(infos: &mut [hb_glyph_info_t], mask: u32) {
    for info in infos.iter_mut() {
        add_mask_to(info, mask);
    }
}

/// Adds a mask to that of a glyph.
fn add_mask_to(info: &mut hb_glyph_info_t, mask: u32) {
    info.mask |= mask;
}

/// Where the digits begin that end before a place.
///
/// # Requires
///
/// - `place ≤ length infos.now`
fn digits_before(infos: &[hb_glyph_info_t], place: usize) -> usize {
    debug_assert!(place <= infos.len());
    let mut start = place;
    while start > 0 && is_decimal_number(&infos[start - 1]) {
        start -= 1;
    }
    start
}

/// Where the digits end that begin at a place.
///
/// # Requires
///
/// - `place ≤ length infos.now`
fn digits_behind(infos: &[hb_glyph_info_t], place: usize) -> usize {
    debug_assert!(place <= infos.len());
    let mut end = place;
    while end < infos.len() && is_decimal_number(&infos[end]) {
        end += 1;
    }
    end
}
