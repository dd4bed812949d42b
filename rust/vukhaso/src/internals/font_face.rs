// Written by tools/plain_rust from crates/font_face. Do not edit.

//! A font, as far as shaping asks it: its tables, the measures and names of its glyphs, and its variations.

mod bounds;
mod color;
mod directory;
mod face;
mod layout;
mod measures;
mod names;
mod variations;

pub use crate::font_variations::{Axis, Variation};
pub use color::ColorTables;
pub use face::{Face, Lookups};
pub use layout::Layout;
pub use names::FaceNames;
pub use variations::FaceVariations;
