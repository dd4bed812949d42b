// Written by tools/plain_rust from crates/ot_apply. Do not edit.

//! The plan of a text, applied to its glyphs: masks of features, the lookups of `GSUB` or Apple's table `morx`, and what shapers of
//! scripts do between stages.

mod cluster_order;
mod forms_of_font;
mod joined_syllables;
mod masks;
mod seen_glyphs;
mod substitution;

pub use masks::set_masks;
pub use substitution::substitute;
