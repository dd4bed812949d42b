// Written by tools/plain_rust from crates/glyph_text. Do not edit.

//! Glyphs as a text: rustybuzz's form of the format of HarfBuzz's `hb_buffer_serialize_glyphs`, and what can be read
//! back from such a text.
//!
//! Nothing here knows of a buffer: `shaping_buffer` gives the text of what it holds.

mod number_text;
pub mod parts;
pub mod serialize;
