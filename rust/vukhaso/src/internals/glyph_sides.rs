// Written by tools/plain_rust from crates/glyph_sides. Do not edit.

//! Both sides of a list of glyphs that is read and written at a cursor: what was put out, and what is left to read. They
//! share one vector until more is put out than was read.
//!
//! Nothing here knows of refusals, scratch flags or positions: `shaping_buffer` keeps these.

pub use sides::Sides;

mod characters;
mod copies;
mod lend;
mod merged_copies;
mod one_slice;
mod shifts;
mod sides;
