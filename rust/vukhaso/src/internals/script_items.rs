// Written by tools/plain_rust from crates/script_items. Do not edit.

//! What every shaper of a script keeps with an item and does with items: a byte of its own, marks of a class, masks by a number, and
//! items that move in front of others. The font is asked by [`FontGlyphs`].

pub use cluster_level::allows_any_order;
pub use font::FontGlyphs;
pub use ties::{Tie, Ties, keep_tied};

mod cluster_level;
pub mod font;
pub mod glyph_info;
pub mod item;
pub mod masks;
pub mod moves;
mod ties;
