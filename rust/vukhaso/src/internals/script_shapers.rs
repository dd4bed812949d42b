// Written by tools/plain_rust from crates/script_shapers. Do not edit.

//! Which shaper a script has, and what it asks beyond the default one.
//!
//! A text's [`ScriptShaper`] says by its methods what is done at each step of shaping; [`ScriptPlan`] and [`SyllablePlan`] keep what
//! the features of a font make of it.

pub use features::{collect_features, override_features};
pub use plan::{ScriptPlan, script_plan};
pub use shaper::{NormalizationMode, ScriptShaper, ZeroWidthMarks};
pub use syllables::{SyllablePlan, syllable_plan};

mod features;
mod plan;
mod shaper;
mod syllables;
