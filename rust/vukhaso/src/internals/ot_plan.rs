// Written by tools/plain_rust from crates/ot_plan. Do not edit.

//! How texts of a script, a language and a direction are shaped by a font: what is made once for all of them (HarfBuzz's
//! `hb_shape_plan_t`).

mod decisions;
mod form_places;
mod glyphs_of_font;
mod kept_plans;
mod lookup_options;
mod planning;
mod shape_plan;

pub use crate::steps::{Step, Unwatched, Watch};
pub use form_places::FormPlaces;
pub use glyphs_of_font::FaceGlyphs;
pub use kept_plans::KeptPlans;
pub use lookup_options::{budget_of, options_of};
pub use planning::{TextPlan, plan_of_text};
pub use shape_plan::{ShapePlan, text_plan};
