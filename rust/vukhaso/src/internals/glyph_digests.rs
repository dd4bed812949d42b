// Written by tools/plain_rust from crates/glyph_digests. Do not edit.

//! What sums up a set of glyphs, so that most others are passed over at once. HarfBuzz's name is `hb_set_digest_t`.

pub mod digest;
pub mod first_glyphs;
pub mod summary;

pub use digest::Digest;
pub use first_glyphs::FirstGlyphs;
