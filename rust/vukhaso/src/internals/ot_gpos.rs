// Written by tools/plain_rust from crates/ot_gpos. Do not edit.

//! Positions by a font's table `GPOS`: how far glyphs are moved, and to which others they are attached.
//!
//! The calls go over a buffer whose positions are on. They change positions, glyph flags and scratch flags, and nothing else:
//! each glyph keeps its number and its cluster. No bytes of a font make a walk go outside of a table or of the glyphs, or go on
//! without an end; what a table does not hold whole is passed over.

mod attachment;
mod contexts;
mod cursive;
mod ligatures;
mod lookups;
mod marks;
mod pairs;
mod turn;

pub use lookups::position;
pub use turn::Setting;
