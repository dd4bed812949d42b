// Written by tools/plain_rust from crates/script_shapers. Do not edit.

//! How a text that is written in syllables is shaped by a font.

use crate::buffer::hb_buffer_t;
use crate::common::Script;
use crate::memory::AllocError;
use crate::ot_map::{LayoutPlan, Pause};
use crate::script_indic::IndicPlan;
use crate::script_shapers::shaper::ScriptShaper;
use crate::script_syllables::{FontForms, item};
use crate::script_universal::{KhmerPlan, MyanmarShaper, UniversalPlan, khmer, universal};

/// How a text that is written in syllables is shaped by a font.
#[derive(Clone, Copy, PartialEq, Eq, Debug)]
pub enum SyllablePlan {
    /// It is not written in syllables.
    None,
    /// It is of an Indic script.
    Indic(IndicPlan),
    /// It is Khmer.
    Khmer(KhmerPlan),
    /// It is Myanmar.
    Myanmar,
    /// It is of a script that the universal shaper serves.
    Universal(UniversalPlan),
}

impl SyllablePlan {
    /// Lets each character keep its category, before glyphs are mapped.
    ///
    /// # Requires
    ///
    /// - `buffer.old.have_output ≡ false`
    ///
    /// # Proved
    ///
    /// ```text
    /// ensures { StaysClosed buffer.old buffer.new }
    /// ```
    #[inline]
    pub fn setup_masks(&self, buffer: &mut hb_buffer_t) {
        debug_assert!(!buffer.have_output());
        match self {
            SyllablePlan::Indic(_) | SyllablePlan::Khmer(_) | SyllablePlan::Myanmar => {
                set_categories(buffer);
            }
            SyllablePlan::Universal(_) => set_universal_categories(buffer),
            SyllablePlan::None => {}
        }
    }

    /// What is done at a pause.
    ///
    /// # Requires
    ///
    /// - `buffer.old.have_output ≡ false`
    ///
    /// # Errors
    ///
    /// `Ok(false)` where the text would become too long. `Err(AllocError)` where memory ran out.
    ///
    /// # Proved
    ///
    /// ```text
    /// ensures { Reorders result buffer.old buffer.new }
    /// ```
    #[inline]
    pub fn pause<F: FontForms>(
        &self,

        buffer: &mut hb_buffer_t,
        font: &mut F,
        pause: Pause,
    ) -> Result<bool, AllocError> {
        debug_assert!(!buffer.have_output());
        match self {
            SyllablePlan::Indic(plan) => plan.pause(pause, buffer, font),
            SyllablePlan::Khmer(plan) => crate::script_universal::pause(plan, buffer, font, pause),
            SyllablePlan::Myanmar => {
                crate::script_universal::pause(&MyanmarShaper, buffer, font, pause)
            }
            SyllablePlan::Universal(plan) => plan.pause(pause, buffer, font),
            SyllablePlan::None => Ok(true),
        }
    }

    /// Whether a rule with context is not taken, where a font is asked for its forms.
    ///
    /// # Proved
    ///
    /// That it returns.
    #[inline]
    pub fn wants_no_context(&self) -> bool {
        match self {
            SyllablePlan::Indic(plan) => plan.wants_no_context(),
            _ => false,
        }
    }
}

/// The plan of a shaper of syllables, for a script and a font's features.
///
/// # Proved
///
/// ```text
/// ensures shaper { is_plan_of shaper result ≡ true }
/// ensures forms { HasForms layout.now shaper result }
/// ```
#[inline]
pub fn syllable_plan(
    shaper: ScriptShaper,
    script: Option<Script>,
    layout: &LayoutPlan,
) -> SyllablePlan {
    match shaper {
        ScriptShaper::Indic => {
            SyllablePlan::Indic(crate::script_indic::features::plan(script, layout))
        }
        ScriptShaper::Khmer => SyllablePlan::Khmer(khmer::features::plan(layout)),
        ScriptShaper::Myanmar => SyllablePlan::Myanmar,
        ScriptShaper::Universal | ScriptShaper::UniversalJoining => {
            let joins = shaper == ScriptShaper::UniversalJoining;
            SyllablePlan::Universal(universal::features::plan(joins, layout))
        }
        _ => SyllablePlan::None,
    }
}

/// Lets each character of an Indic script, of Khmer or of Myanmar keep its category and its position.
///
/// # Requires
///
/// - `buffer.old.have_output ≡ false`
fn set_categories(buffer: &mut hb_buffer_t) {
    debug_assert!(!buffer.have_output());
    item::set_categories(buffer.info_slice_mut());
}

/// Lets each character of a script of the universal shaper keep its category.
///
/// # Requires
///
/// - `buffer.old.have_output ≡ false`
fn set_universal_categories(buffer: &mut hb_buffer_t) {
    debug_assert!(!buffer.have_output());
    universal::item::set_categories(buffer.info_slice_mut());
}
