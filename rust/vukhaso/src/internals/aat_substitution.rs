// Written by tools/plain_rust from crates/aat_substitution. Do not edit.

//! Substitution of glyphs in a shaping buffer by Apple's table `morx` (Apple's TrueType Reference Manual, "The 'morx' table"), as
//! HarfBuzz makes it in place of the lookups of `GSUB`.
//!
//! What a subtable does at a glyph is read by `aat_tables`; here it is done, by the calls of the buffer alone.

mod action;
mod chain_flags;
mod contextual;
pub mod deletion;
mod driver;
mod feature_mapping;
mod insertion;
mod ligature;
mod noncontextual;
mod rearrangement;
mod selection;
mod setting;
mod substitution;
mod work;
mod writing;

pub use chain_flags::ChainFlags;
pub use deletion::remove_deleted_glyphs;
pub use feature_mapping::{FeatureMapping, mapping_of};
pub use selection::{SelectedFeature, selected_features};
pub use substitution::{Substitution, substitute};
