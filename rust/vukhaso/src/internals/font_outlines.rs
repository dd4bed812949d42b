// Written by tools/plain_rust from crates/font_outlines. Do not edit.

//! The boxes of glyphs, and the glyph names of CFF fonts, as HarfBuzz gives them.
//!
//! Outlines are read from `CFF ` and `CFF2`, where a charstring is run for the box, in `CFF2` at a place in the variations of the font;
//! `Outlines` asks `outline_tables` for those of `glyf` first. Nothing is drawn.
//!
//! A table is a slice of bytes that may be cut short or hold anything, and an empty one is a table that the font does not
//! have. No memory is asked for. A charstring takes a limited number of steps, and calls subroutines to a limited depth.

pub mod cff;
pub mod cff_2;
pub mod charset;
mod charstring;
mod charstring_2;
mod curves;
mod extents;
mod outlines;
pub mod path;
mod standard_encoding;
pub mod standard_strings;

pub use cff::CffTable;
pub use cff_2::Cff2Table;
pub use outlines::Outlines;
