// Written by tools/plain_rust from crates/ot_map. Do not edit.

//! Which lookups of a font shape a text: scripts, language systems and features of the tables `GSUB` and `GPOS`, and the masks
//! by which a glyph has a feature (OpenType specification, "OpenType Layout Common Table Formats").

mod allocation;
pub mod bits;
pub mod builder;
pub mod choice;
mod default_features;
pub mod plan;
pub mod request;
pub mod shape_plan;
mod stage_lookups;
pub mod tables;

pub use builder::PlanBuilder;
pub use plan::{LayoutPlan, Pause, PlannedFeature, PlannedLookup, Stage};
pub use request::{FeatureFlags, FeatureRequest};
pub use shape_plan::{FontLayout, KernLayout, OtShapePlan, TextProperties};
pub use tables::LayoutTable;
