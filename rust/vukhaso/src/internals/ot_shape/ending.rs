// Written by tools/plain_rust from crates/ot_shape. Do not edit.

//! The last steps of shaping: what is taken out, hidden or stretched, and the glyph flags of clusters.

use crate::aat_substitution::remove_deleted_glyphs;
use crate::buffer::hb_buffer_t;
use crate::font_face::Face;
use crate::font_functions::FontFunctions;
use crate::memory::AllocError;
use crate::ot_plan::{FaceGlyphs, TextPlan};
use crate::ot_positions::{
    hide_ignorables, mark_given_up, propagate_flags, share_flags, show_variation_selectors,
};
use crate::script_shapers::ScriptPlan;

/// The last steps: what is not to be seen is hidden, marks are stretched, and the glyphs of a cluster
/// have the same flags.
///
/// # Requires
///
/// - `placed: HasPositions buffer.old`
///
/// # Errors
///
/// `Ok(false)` where a call was refused for length.
pub(crate) fn finish_glyphs<F: FontFunctions>(
    buffer: &mut hb_buffer_t,
    face: &Face,
    font: &F,
    plan: &TextPlan,
) -> Result<bool, AllocError> {
    debug_assert!(!buffer.have_output() && buffer.have_positions());
    hide_glyphs(buffer, font, plan);
    if !stretch_marks(buffer, face, font, &plan.script)? {
        return Ok(false);
    }
    end_flags(buffer);
    Ok(true)
}

/// Marks a text of which shaping was given up, and then gives the glyphs of a cluster the same flags.
///
/// # Requires
///
/// - `placed: HasPositions buffer.old`
fn end_flags(buffer: &mut hb_buffer_t) {
    debug_assert!(!buffer.have_output() && buffer.have_positions());
    mark_given_up(buffer);
    propagate_flags(buffer);
}

/// Takes out glyphs that were deleted, and hides what is not to be seen.
///
/// # Requires
///
/// - `placed: HasPositions buffer.old`
fn hide_glyphs<F: FontFunctions>(buffer: &mut hb_buffer_t, font: &F, plan: &TextPlan) {
    debug_assert!(!buffer.have_output() && buffer.have_positions());
    remove_deleted(buffer, plan);
    hide_unseen(buffer, font);
}

/// Shows the variation selectors that the font does not know, and hides what is not to be seen.
///
/// # Requires
///
/// - `placed: HasPositions buffer.old`
fn hide_unseen<F: FontFunctions>(buffer: &mut hb_buffer_t, font: &F) {
    debug_assert!(!buffer.have_output() && buffer.have_positions());
    show_variation_selectors(buffer);
    hide_ignorables(buffer, font);
}

/// Stretches the marks of a text that is shaped, as the shaper of its script says.
///
/// # Requires
///
/// - `placed: HasPositions buffer.old`
///
/// # Errors
///
/// `Ok(false)` where a call was refused for length.
fn stretch_marks<F: FontFunctions>(
    buffer: &mut hb_buffer_t,
    face: &Face,
    font: &F,
    script: &ScriptPlan,
) -> Result<bool, AllocError> {
    debug_assert!(!buffer.have_output() && buffer.have_positions());
    script.postprocess_glyphs(buffer, &FaceGlyphs { face, font })
}

/// Takes out glyphs that were deleted by Apple's table `morx`, unless `GPOS` positioned the others
/// without them.
///
/// # Requires
///
/// - `placed: HasPositions buffer.old`
fn remove_deleted(buffer: &mut hb_buffer_t, plan: &TextPlan) {
    debug_assert!(!buffer.have_output() && buffer.have_positions());
    if plan.chain_flags.is_some() && !plan.shape.apply_gpos {
        share_flags(buffer);
        remove_deleted_glyphs(buffer);
    }
}
