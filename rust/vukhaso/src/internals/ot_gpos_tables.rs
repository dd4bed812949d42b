// Written by tools/plain_rust from crates/ot_gpos_tables. Do not edit.

//! Positions by a font's tables `GPOS` and `kern`: how far glyphs are moved, and to which others they are attached.
//!
//! No bytes of a font make a walk go outside of a table or a list of glyphs, or go on without an end. What a table does not
//! hold whole is passed over.

pub mod anchors;
pub mod contour_points;
pub mod devices;
pub mod instance;
pub mod kern_table;
pub mod pairs;
pub mod sorted_rows;
pub mod values;
