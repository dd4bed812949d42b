// Written by tools/plain_rust from crates/script_universal. Do not edit.

//! The shaper of Myanmar (OpenType, "Developing OpenType Fonts for Myanmar Script"): HarfBuzz's `hb-ot-shaper-myanmar.cc`.

pub mod features;
pub mod machine;
mod order;
pub mod plan;
mod positions;
