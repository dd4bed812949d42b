// Written by tools/plain_rust from crates/rb_glyph. Do not edit.

//! What a shaper remembers of a buffer from one step to the next, after HarfBuzz's `hb_buffer_scratch_flags_t`.

/// A word of scratch flags.
pub type hb_buffer_scratch_flags_t = u32;

/// Nothing is remembered.
pub const HB_BUFFER_SCRATCH_FLAG_DEFAULT: u32 = 0;

/// A character past U+007F stands in the buffer.
pub const HB_BUFFER_SCRATCH_FLAG_HAS_NON_ASCII: u32 = 1;

/// A character that is invisible by default stands in the buffer.
pub const HB_BUFFER_SCRATCH_FLAG_HAS_DEFAULT_IGNORABLES: u32 = 2;

/// A space stands in the buffer whose width has to be made from other spaces.
pub const HB_BUFFER_SCRATCH_FLAG_HAS_SPACE_FALLBACK: u32 = 4;

/// A glyph is attached to another.
pub const HB_BUFFER_SCRATCH_FLAG_HAS_GPOS_ATTACHMENT: u32 = 8;

/// U+034F COMBINING GRAPHEME JOINER stands in the buffer.
pub const HB_BUFFER_SCRATCH_FLAG_HAS_CGJ: u32 = 0x10;

/// A glyph may have glyph flags.
pub const HB_BUFFER_SCRATCH_FLAG_HAS_GLYPH_FLAGS: u32 = 0x20;

/// A syllable stands in the buffer that its script does not allow.
pub const HB_BUFFER_SCRATCH_FLAG_HAS_BROKEN_SYLLABLE: u32 = 0x40;

/// A variation selector stands in the buffer that the font does not know.
pub const HB_BUFFER_SCRATCH_FLAG_HAS_VARIATION_SELECTOR_FALLBACK: u32 = 0x80;

/// The first of the bits that the shaper of a script has for itself.
pub const HB_BUFFER_SCRATCH_FLAG_SHAPER0: u32 = 0x0100_0000;
