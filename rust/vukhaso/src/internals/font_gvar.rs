// Written by tools/plain_rust from crates/font_gvar. Do not edit.

//! TrueType outlines, as HarfBuzz reads them: where they vary their bounds, and their advances where a font has no table of these (OpenType
//! specification, "glyf - Glyph Data" and "gvar - Glyph Variations Table").
//!
//! Each glyph has its points, and behind them four phantom points, by which its advances and its origins vary. Coordinates of
//! points and deltas are floats of 32 bits, as they are in HarfBuzz.
//!
//! A table is a slice of bytes that may be cut short or hold anything. Phantom points ask for no memory, and bounds ask for
//! that of the points of a glyph. Glyphs that are put together of others are followed to a limited depth.

mod components;
mod flags;
mod gvar;
mod inference;
mod outline_bounds;
mod outlines;
mod phantoms;
mod points;
mod simple_outlines;
mod sources;
mod tuple_deltas;
mod tuple_scalar;
mod tuples;
mod varied_points;

pub use gvar::GlyphVariations;
pub use outline_bounds::{PointBounds, VariedOutline, varied_outline};
pub use phantoms::{Phantoms, varied_phantoms};
pub use points::Point;
pub use sources::GlyphSources;
