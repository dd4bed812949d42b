// Written by tools/plain_rust from crates/rb_glyph. Do not edit.

//! The flags of a glyph, in bits 0 to 2 of its mask, after HarfBuzz's `hb_glyph_flags_t`.

/// A line that is broken before this glyph's cluster has to be shaped again on both sides.
pub const UNSAFE_TO_BREAK: u32 = 1;

/// Where the text on one side of this glyph's cluster changes, the other side has to be shaped again.
pub const UNSAFE_TO_CONCAT: u32 = 2;

/// U+0640 ARABIC TATWEEL may be put before this glyph's cluster to make the line longer.
pub const SAFE_TO_INSERT_TATWEEL: u32 = 4;

/// All flags of a glyph.
pub const DEFINED: u32 = 7;
