// Written by tools/plain_rust from crates/ot_shape. Do not edit.

//! The shaping of texts by a font.

mod ending;
mod shaping;
mod verified;
mod with_plans;

pub use crate::font_face::{
    Axis, ColorTables, Face, FaceNames, FaceVariations, Layout, Lookups, Variation,
};
pub use crate::font_functions::{FontFunctions, OwnFunctions};
pub use crate::ot_plan::{KeptPlans, ShapePlan, Step, Unwatched, Watch};
pub use crate::verification::{Differences, ShapeError, VerifyError, compare};
pub use shaping::{shape, shape_watched, shape_with_functions, shape_with_functions_watched};
pub use with_plans::{
    shape_with_functions_and_plans, shape_with_kept_plans, shape_with_plan, shape_with_plan_watched,
};
