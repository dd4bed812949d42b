// Written by tools/plain_rust from crates/script_universal. Do not edit.

//! The shaper of Khmer (OpenType, "Developing OpenType Fonts for Khmer Script"): HarfBuzz's `hb-ot-shaper-khmer.cc`.

pub mod composition;
pub mod features;
pub mod machine;
mod order;
pub mod plan;
