// Written by tools/plain_rust from crates/ot_substitution. Do not edit.

//! What a lookup of `GSUB` does at a glyph of a plain list (OpenType specification, "GSUB").
//!
//! Nothing here changes a glyph: a lookup's answer is a value. A table is a slice of bytes that may be cut short or hold anything.

pub mod glyph_table;
pub mod substitution;
mod would;

pub use would::would_substitute;
