// Written by tools/plain_rust from crates/script_indic. Do not edit.

//! The shaper of Devanagari, Bengali, Gurmukhi, Gujarati, Oriya, Tamil, Telugu, Kannada and Malayalam (OpenType, "Developing OpenType
//! Fonts for Devanagari Script" and its companions): HarfBuzz's `hb-ot-shaper-indic.cc`.

pub use configuration::{IndicConfiguration, RephMode};
pub use plan::{ConsonantForms, IndicMasks, IndicPlan};

mod base;
pub mod composition;
pub mod configuration;
pub mod features;
mod final_base;
mod final_order;
mod initial_masks;
mod initial_order;
mod item;
pub mod machine;
mod matras;
pub mod plan;
mod pref;
mod reordering;
mod reph;
pub mod scripts;
