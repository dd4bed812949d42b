// Written by tools/plain_rust from crates/ot_layout. Do not edit.

//! OpenType layout over plain lists of glyphs (OpenType specification, "OpenType Layout Common Table Formats"): which glyphs a lookup passes
//! over, what is asked of a glyph, and how much work is left.
//!
//! Nothing here changes a glyph, and nothing knows of a buffer: glyphs are slices. How much work a font may cause is limited by a
//! `Budget`.

pub mod budget;
pub mod ligature_parts;
pub mod matcher;
pub mod search;
pub mod skipping_iterator;

pub use budget::Budget;
pub use matcher::Matcher;
pub use search::{ApplyContext, LookupContext, MatchPositions, Reach, Search};
pub use skipping_iterator::{Found, LookupOptions, SkippingIterator};
