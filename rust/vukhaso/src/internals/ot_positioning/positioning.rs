// Written by tools/plain_rust from crates/ot_positioning. Do not edit.

//! The positions of the glyphs of a text, step by step.

use crate::buffer::{Direction, hb_buffer_t};
use crate::font_face::Face;
use crate::font_functions::FontFunctions;
use crate::memory::AllocError;
use crate::ot_attachments::position_finish_offsets;
use crate::ot_map::OtShapePlan;
use crate::ot_plan::{Step, TextPlan, Watch};
use crate::ot_positioning::fallback_marks::position_marks;
use crate::ot_positioning::lookups::position_by_lookups;
use crate::ot_positions::{
    position_glyphs, track, zero_mark_widths, zero_width_default_ignorables,
    zero_width_deleted_glyphs,
};
use crate::script_shapers::ZeroWidthMarks;

/// Positions the glyphs: by the font's advances, by its lookups, and marks without a width of their
/// own. `direction` is the way in which the line was said to run.
///
/// # Requires
///
/// - `buffer.old.have_output ≡ false`
///
/// # Errors
///
/// `Err(AllocError)` where memory ran out.
///
/// # Proved
///
/// ```text
/// ensures closed { IfOk result (λ _. buffer.new.have_output ≡ false) }
/// ensures placed { IfOk result (λ _. IsSome buffer.new.positions) }
/// ensures keeps { KeepsClusters buffer.old buffer.new }
/// ```
#[inline]
pub fn position<F: FontFunctions, W: Watch>(
    buffer: &mut hb_buffer_t,
    face: &Face,
    font: &F,
    plan: &TextPlan,
    direction: Direction,
    watch: &mut W,
) -> Result<(), AllocError> {
    debug_assert!(!buffer.have_output());
    position_glyphs(buffer, face, font)?;
    watch.step(Step::Advances, buffer)?;
    let adjusts = adjusts_marks(buffer, &plan.shape);
    zero_marks(buffer, zeroes_marks(plan, ZeroWidthMarks::Early), adjusts);
    position_by_lookups(buffer, face, font, &plan.shape, watch)?;
    track(buffer, face, plan.trak_mask);
    zero_marks(buffer, zeroes_marks(plan, ZeroWidthMarks::Late), adjusts);
    zero_deleted(buffer, plan);
    finish_positions(buffer, face, font, &plan.shape, direction)
}

/// Whether marks lose their width at this step.
fn zeroes_marks(plan: &TextPlan, step: ZeroWidthMarks) -> bool {
    plan.shape.zero_marks && plan.script.shaper.zero_width_marks() == step
}

/// Whether a mark that loses its width is moved back by it.
fn adjusts_marks(buffer: &hb_buffer_t, plan: &OtShapePlan) -> bool {
    plan.adjust_mark_positioning_when_zeroing && buffer.direction.is_forward()
}

/// Takes the width of what is not to be seen, and places the glyphs that stand by others.
///
/// # Requires
///
/// - `placed: HasPositions buffer.old`
fn finish_positions<F: FontFunctions>(
    buffer: &mut hb_buffer_t,
    face: &Face,
    font: &F,
    plan: &OtShapePlan,
    direction: Direction,
) -> Result<(), AllocError> {
    debug_assert!(!buffer.have_output() && buffer.have_positions());
    let adjusts = adjusts_marks(buffer, plan);
    zero_width_default_ignorables(buffer);
    position_finish_offsets(buffer);
    if plan.fallback_mark_positioning {
        position_marks(buffer, face, font, direction, adjusts)?;
    }
    Ok(())
}

/// Takes the width of glyphs that were deleted by Apple's table `morx`.
///
/// # Requires
///
/// - `placed: HasPositions buffer.old`
fn zero_deleted(buffer: &mut hb_buffer_t, plan: &TextPlan) {
    debug_assert!(!buffer.have_output() && buffer.have_positions());
    if plan.chain_flags.is_some() {
        zero_width_deleted_glyphs(buffer);
    }
}

/// Takes the width of marks, where that is said.
///
/// # Requires
///
/// - `placed: HasPositions buffer.old`
fn zero_marks(buffer: &mut hb_buffer_t, zeroes: bool, adjusts: bool) {
    debug_assert!(!buffer.have_output() && buffer.have_positions());
    if zeroes {
        zero_mark_widths(buffer, adjusts);
    }
}
