// Written by tools/plain_rust from crates/ot_plan. Do not edit.

//! Plans that are kept from one text to the next.

use crate::buffer::{Feature, hb_buffer_t};
use crate::font_face::Face;
use crate::font_functions::FontFunctions;
use crate::memory::{AllocError, Vec};
use crate::ot_plan::planning::SegmentProperties;
use crate::ot_plan::shape_plan::ShapePlan;

/// How many plans are kept at most: for so many scripts, languages, directions and features that texts have in turn.
const MOST_PLANS: usize = 64;

/// Plans of the texts before, each of which is used again for texts of the same font that it is for too, as HarfBuzz's
/// `hb_shape_plan_create_cached2` does it.
///
/// # Proved
///
/// ```text
/// ghost Value = { List MadePlan }
/// ghost view = { λ k. unwrap_or (option_map (λ plans. plans.items) k.plans) [] }
/// ```
#[derive(Debug)]
pub struct KeptPlans {
    plans: Option<Vec<ShapePlan>>,
}

impl KeptPlans {
    /// No plans.
    ///
    /// # Proved
    ///
    /// ```text
    /// ensures { result ≡ [] }
    /// ```
    #[inline]
    pub fn new() -> Self {
        KeptPlans { plans: None }
    }

    /// The plans that are kept.
    ///
    /// # Proved
    ///
    /// ```text
    /// ensures { result.now ≡ self.now }
    /// ```
    #[inline]
    pub fn plans(&self) -> &[ShapePlan] {
        match &self.plans {
            Some(plans) => plans.as_slice(),
            None => &[],
        }
    }

    /// The place of the plan for the text of a buffer: one that was kept, where a new one would be the
    /// same, and else a new one.
    ///
    /// # Errors
    ///
    /// `Err(AllocError)` where memory ran out.
    ///
    /// # Proved
    ///
    /// ```text
    /// ensures { IfOk result (λ place. IsSomeAnd (slice_get self.new place)
    ///     (λ plan. IsPlanOf plan face.now features.now buffer.now)) }
    /// ```
    #[inline]
    pub fn find<F: FontFunctions>(
        &mut self,
        face: &Face,
        font: &F,
        features: &[Feature],
        buffer: &hb_buffer_t,
    ) -> Result<usize, AllocError> {
        if let Some(place) = place_of(self.plans(), face, features, buffer) {
            return Ok(place);
        }
        self.add(plan_of_buffer(face, font, features, buffer)?)
    }

    /// Keeps one more plan, and says where. Where many are kept, these are let go.
    fn add(&mut self, plan: ShapePlan) -> Result<usize, AllocError> {
        let mut plans = match self.plans.take() {
            Some(plans) if plans.len() < MOST_PLANS => plans,
            _ => Vec::new(),
        };
        let place = plans.len();
        plans.push(plan)?;
        self.plans = Some(plans);
        Ok(place)
    }
}

/// The place of the first plan that would be made for the text of a buffer.
fn place_of(
    plans: &[ShapePlan],
    face: &Face,
    features: &[Feature],
    buffer: &hb_buffer_t,
) -> Option<usize> {
    for place in 0..plans.len() {
        if plans[place].is_plan_of(face, features, buffer) {
            return Some(place);
        }
    }
    None
}

/// A new plan for the text of a buffer.
fn plan_of_buffer<F: FontFunctions>(
    face: &Face,
    font: &F,
    features: &[Feature],
    buffer: &hb_buffer_t,
) -> Result<ShapePlan, AllocError> {
    let segment = SegmentProperties {
        direction: buffer.direction,
        script: buffer.script,
        language: buffer.language.as_ref(),
    };
    ShapePlan::with_functions(face, font, &segment, features)
}
