//! Tests of the crates that read variations, over what they make public. Each table is a
//! small one, and what it gives is computed by hand from the OpenType specification.

mod axes;
mod deltas;
mod glyphs;
mod tables;
