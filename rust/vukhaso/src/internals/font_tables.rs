// Written by tools/plain_rust from crates/font_tables. Do not edit.

//! Readers of the tables of an OpenType font, total over any bytes.
//!
//! A table is a slice of bytes that may be cut short or hold anything. A number that lies outside of it is `None`, and
//! so is a row: what a font does not have is not there, and no reader fails.

pub mod bisection;
pub mod bytes;
pub mod class_definition;
pub mod coverage;
pub mod directory;
pub mod extents;
pub mod gdef;
pub mod glyph_names;
mod glyph_ranges;
pub mod head;
pub mod ignored_gdef;
mod macintosh_names;
pub mod metrics;
mod resources;
pub mod rows;
pub mod scale;
pub mod vertical_origins;
