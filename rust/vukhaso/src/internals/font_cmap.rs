// Written by tools/plain_rust from crates/font_cmap. Do not edit.

//! The map from characters to glyphs of an OpenType font (table `cmap`), total over any bytes.
//!
//! A font may have several subtables. One is chosen, as HarfBuzz chooses it, and gives the glyphs of characters; another
//! one says what glyphs variation sequences have.

mod arrays;
mod choice;
pub mod codes;
mod counts;
mod groups;
mod legacy_codes;
mod low_numbers;
pub mod map;
mod runs;
mod segment_lists;
mod segments;
mod subtable;
pub mod variations;

pub use codes::Encoding;
pub use map::CharacterMap;
pub use variations::GlyphVariant;
