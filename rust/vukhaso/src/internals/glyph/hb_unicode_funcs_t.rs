// Written by tools/plain_rust from crates/rb_glyph. Do not edit.

//! Kinds of spaces, after HarfBuzz's `hb_unicode_funcs_t`.

/// The kind of a space's width.
pub type space_t = u8;

/// No space.
pub const NOT_SPACE: space_t = 0;

/// An em.
pub const SPACE_EM: space_t = 1;

/// Half an em.
pub const SPACE_EM_2: space_t = 2;

/// A third of an em.
pub const SPACE_EM_3: space_t = 3;

/// A quarter of an em.
pub const SPACE_EM_4: space_t = 4;

/// A fifth of an em.
pub const SPACE_EM_5: space_t = 5;

/// A sixth of an em.
pub const SPACE_EM_6: space_t = 6;

/// A sixteenth of an em.
pub const SPACE_EM_16: space_t = 16;

/// Four eighteenths of an em.
pub const SPACE_4_EM_18: space_t = 17;

/// As wide as U+0020.
pub const SPACE: space_t = 18;

/// As wide as a digit.
pub const SPACE_FIGURE: space_t = 19;

/// As wide as a full stop.
pub const SPACE_PUNCTUATION: space_t = 20;

/// Half as wide as U+0020 or so.
pub const SPACE_NARROW: space_t = 21;
