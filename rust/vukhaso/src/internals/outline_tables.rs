// Written by tools/plain_rust from crates/outline_tables. Do not edit.

//! Where the outlines of glyphs lie in a font, and what is read of them first: the tables `glyf` and `loca`, with the boxes that headers
//! name, and the INDEX and DICT data of `CFF ` and `CFF2`.
//!
//! A table is a slice of bytes that may be cut short or hold anything, and an empty one is a table that the font does not
//! have. No memory is asked for.

pub mod dict;
pub mod font_dicts;
pub mod glyf;
pub mod index;
pub mod index_2;
pub mod operand;
pub mod subroutines;

pub use dict::Dict;
pub use glyf::GlyfTables;
