// Written by tools/plain_rust from crates/script_universal. Do not edit.

//! The universal shaper, of scripts that have no shaper of their own (OpenType, "Creating and supporting OpenType fonts for the
//! Universal Shaping Engine"): HarfBuzz's `hb-ot-shaper-use.cc`.

pub mod features;
mod flags;
pub mod item;
pub mod machine;
mod masks;
mod order;
pub mod plan;
mod recorded;
pub mod scripts;

pub use flags::{FormLookup, flag_forms};
