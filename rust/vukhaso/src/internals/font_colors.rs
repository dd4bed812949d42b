// Written by tools/plain_rust from crates/font_colors. Do not edit.

//! The boxes of bitmaps and of color glyphs, as HarfBuzz gives them.
//!
//! A font may have bitmaps of its glyphs for some sizes in pixels, its strikes, in `CBDT` and `sbix`, and in `COLR` boxes that
//! glyphs drawn in colours are clipped to. Nothing is drawn, and of an image the size alone is read.
//!
//! A table is a slice of bytes that may be cut short or hold anything, and an empty one is a table that the font does not
//! have. No memory is asked for.

mod angles;
mod base_glyphs;
mod bounds;
pub mod cbdt;
mod color_extents;
pub mod colr;
mod extents;
mod outlines;
mod paint_values;
mod painter;
pub mod pixels;
pub mod sbix;
pub mod strikes;
mod transform;

pub use cbdt::CbdtTables;
pub use colr::ColrTable;
pub use outlines::DrawnOutlines;
pub use pixels::PixelBox;
pub use sbix::SbixTable;
