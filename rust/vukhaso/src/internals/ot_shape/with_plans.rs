// Written by tools/plain_rust from crates/ot_shape. Do not edit.

//! The shaping of texts by plans that were made before.

use crate::buffer::{Feature, GlyphBuffer, UnicodeBuffer};
use crate::font_face::Face;
use crate::font_functions::{FontFunctions, OwnFunctions};
use crate::ot_plan::{KeptPlans, ShapePlan, Unwatched, Watch, text_plan};
use crate::ot_shape::shaping::shape_by_plan;
use crate::verification::ShapeError;

/// Shapes a text by a font and a plan that was made for both, with the features of the plan. A script
/// and a direction that were not said are guessed.
///
/// # Errors
///
/// `ShapeError::OtherPlan` where the text has another script, language or direction than the plan, or
/// the font is at another place in its variations; nothing is shaped then.
///
/// # Proved
///
/// ```text
/// ensures shapes { IfOk result (AreShaped (guessed text).direction text) }
/// ensures own { IfOk result (λ _. IsFor plan.now face.now plan.now.texts.features (guessed text)) }
/// ensures other { IsErrOf result ShapeError.OtherPlan
///     ↔ ¬ IsFor plan.now face.now plan.now.texts.features (guessed text) }
/// ```
#[inline]
pub fn shape_with_plan(
    face: &Face,
    plan: &ShapePlan,
    text: UnicodeBuffer,
) -> Result<GlyphBuffer, ShapeError> {
    shape_with_plan_watched(face, plan, plan.features(), text, &mut Unwatched)
}

/// Shapes a text by a font, a plan that was made for both, and features that differ from those of the
/// plan in their ranges alone (HarfBuzz's `hb_shape_plan_execute`), and tells of each step.
///
/// # Errors
///
/// `ShapeError::OtherPlan` where `ShapePlan::is_for` says no.
///
/// # Proved
///
/// ```text
/// ensures shapes { IfOk result (AreShaped (guessed text).direction text) }
/// ensures own { IfOk result (λ _. IsFor plan.now face.now features.now (guessed text)) }
/// ensures other { IsErrOf result ShapeError.OtherPlan
///     ↔ ¬ IsFor plan.now face.now features.now (guessed text) }
/// ```
#[inline]
pub fn shape_with_plan_watched<W: Watch>(
    face: &Face,
    plan: &ShapePlan,
    features: &[Feature],
    text: UnicodeBuffer,
    watch: &mut W,
) -> Result<GlyphBuffer, ShapeError> {
    let mut text = text;
    text.guess_segment_properties();
    if !plan.is_for(face, features, &text) {
        return Err(ShapeError::OtherPlan);
    }
    let buffer = text.into_buffer();
    let own = OwnFunctions { face };
    shape_by_plan(face, &own, text_plan(plan), features, buffer, watch)
}

/// Shapes a text by a font, as `shape` does, by the plan of a text before where a new plan would be the
/// same, and else by a new one, which is kept. The plans are for one font; whatever is chosen of it
/// between two texts, its size and its variations, may change.
///
/// # Errors
///
/// `Err`: the clauses below say when.
///
/// # Proved
///
/// ```text
/// ensures { ShapesByKept face.now features.now kept.new text result }
/// ```
#[inline]
pub fn shape_with_kept_plans(
    face: &Face,
    features: &[Feature],
    kept: &mut KeptPlans,
    text: UnicodeBuffer,
) -> Result<GlyphBuffer, ShapeError> {
    shape_with_functions_and_plans(face, &OwnFunctions { face }, features, kept, text)
}

/// Shapes a text by a font of which these functions answer, as `shape_with_functions` does, and by
/// plans that are kept, as `shape_with_kept_plans` does. The plans are for one font and its functions.
///
/// # Errors
///
/// `Err`: the clauses below say when.
///
/// # Proved
///
/// ```text
/// ensures { ShapesByKept face.now features.now kept.new text result }
/// ```
#[inline]
pub fn shape_with_functions_and_plans<F: FontFunctions>(
    face: &Face,
    font: &F,
    features: &[Feature],
    kept: &mut KeptPlans,
    text: UnicodeBuffer,
) -> Result<GlyphBuffer, ShapeError> {
    let mut text = text;
    text.guess_segment_properties();
    let buffer = text.into_buffer();
    let place = kept.find(face, font, features, &buffer)?;
    match kept.plans().get(place) {
        Some(plan) => shape_by_plan(
            face,
            font,
            text_plan(plan),
            features,
            buffer,
            &mut Unwatched,
        ),
        None => Err(ShapeError::Memory),
    }
}
