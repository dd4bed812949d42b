// Written by tools/plain_rust from crates/ot_positions. Do not edit.

//! Where glyphs stand by a font besides its lookups: advances and origins, spaces that a font has no glyph for, the space of Apple's
//! table `trak`, the classes of marks, and glyphs that are not to be seen.

mod cluster_flags;
mod ending;
mod fallback_spaces;
mod glyph_info;
mod kept_positions;
mod mark_classes;
mod positions;
mod tracking;
mod widths;

pub use cluster_flags::{propagate_flags, share_flags};
pub use ending::{hide_ignorables, mark_given_up, show_variation_selectors};
pub use mark_classes::recategorize_marks;
pub use positions::{position_glyphs, set_position};
pub use tracking::track;
pub use widths::{
    zero_mark_width, zero_mark_widths, zero_width_default_ignorables, zero_width_deleted_glyphs,
};
