// Written by tools/plain_rust from crates/ot_apply. Do not edit.

//! What the shapers of syllables ask of a font.

use crate::buffer::hb_buffer_t;
use crate::font_face::Face;
use crate::font_functions::FontFunctions;
use crate::memory::AllocError;
use crate::ot_layout::Budget;
use crate::ot_map::{LayoutPlan, Pause};
use crate::ot_plan::{FormPlaces, TextPlan, budget_of};
use crate::ot_substitution::would_substitute;
use crate::script_syllables::{FontForms, FormFeature};

/// A font with the features of a text.
#[derive(Debug)]
struct Forms<'a, F> {
    face: &'a Face<'a>,
    font: &'a F,
    layout: &'a LayoutPlan,
    /// Where the lookups of each feature stand.
    places: &'a FormPlaces,
    /// Whether a rule with context is not taken.
    wants_no_context: bool,
    /// What the questions may cost.
    budget: Budget,
}

impl<F: FontFunctions> FontForms for Forms<'_, F> {
    fn glyph_of(&self, character: u32) -> Option<u32> {
        match self.font.nominal_glyph(character) {
            Some(glyph) => Some(u32::from(glyph.0)),
            None => None,
        }
    }

    fn would_substitute(&mut self, feature: FormFeature, glyphs: &[u32]) -> bool {
        let list = &self.face.lookups.substitutions;
        let lookups = self.layout.gsub_lookups.get(self.places.of(feature));
        for planned in lookups.unwrap_or(&[]) {
            if let Some(lookup) = list.lookup(planned.index) {
                if would_substitute(
                    list,
                    lookup,
                    glyphs,
                    self.wants_no_context,
                    &mut self.budget,
                ) {
                    return true;
                }
            }
        }
        false
    }
}

/// Works on the syllables of a text at a pause.
///
/// # Requires
///
/// - `buffer.old.have_output ≡ false`
///
/// # Errors
///
/// `Ok(false)` where a call was refused for length.
pub(crate) fn work_on_syllables<F: FontFunctions>(
    buffer: &mut hb_buffer_t,
    face: &Face,
    font: &F,
    plan: &TextPlan,
    pause: Pause,
) -> Result<bool, AllocError> {
    debug_assert!(!buffer.have_output());
    if !plan.orders_syllables() {
        return Ok(true);
    }
    let mut forms = Forms {
        face,
        font,
        layout: &plan.shape.layout,
        places: &plan.forms,
        wants_no_context: plan.syllables.wants_no_context(),
        budget: budget_of(buffer),
    };
    if !plan.syllables.pause(buffer, &mut forms, pause)? {
        return Ok(false);
    }
    fail_if_spent(buffer, &forms.budget);
    Ok(true)
}

/// Says that shaping was given up where the budget is spent.
pub(crate) fn fail_if_spent(buffer: &mut hb_buffer_t, budget: &Budget) {
    if budget.is_spent() {
        buffer.shaping_failed = true;
    }
}
