// Written by tools/plain_rust from crates/rb_glyph. Do not edit.

//! The classes that marks are reordered by: `CCCn` stands for the canonical combining class n, after HarfBuzz.
//!
//! Hebrew points go in the order of the SBL Hebrew manual, the Arabic shadda before other marks, and the Telugu length
//! marks and the Thai vowels below so that a shaper finds them where it needs them.

/// Hebrew, canonical class 10.
pub const CCC10: u8 = 22;

/// Hebrew, canonical class 11.
pub const CCC11: u8 = 15;

/// Hebrew, canonical class 12.
pub const CCC12: u8 = 16;

/// Hebrew, canonical class 13.
pub const CCC13: u8 = 17;

/// Hebrew, canonical class 14.
pub const CCC14: u8 = 23;

/// Hebrew, canonical class 15.
pub const CCC15: u8 = 18;

/// Hebrew, canonical class 16.
pub const CCC16: u8 = 19;

/// Hebrew, canonical class 17.
pub const CCC17: u8 = 20;

/// Hebrew, canonical class 18.
pub const CCC18: u8 = 21;

/// Hebrew, canonical class 19.
pub const CCC19: u8 = 14;

/// Hebrew, canonical class 20.
pub const CCC20: u8 = 24;

/// Hebrew, canonical class 21.
pub const CCC21: u8 = 12;

/// Hebrew, canonical class 22.
pub const CCC22: u8 = 25;

/// Hebrew, canonical class 23.
pub const CCC23: u8 = 13;

/// Hebrew, canonical class 24.
pub const CCC24: u8 = 10;

/// Hebrew, canonical class 25.
pub const CCC25: u8 = 11;

/// Hebrew, canonical class 26.
pub const CCC26: u8 = 26;

/// Arabic, canonical class 27.
pub const CCC27: u8 = 28;

/// Arabic, canonical class 28.
pub const CCC28: u8 = 29;

/// Arabic, canonical class 29.
pub const CCC29: u8 = 30;

/// Arabic, canonical class 30.
pub const CCC30: u8 = 31;

/// Arabic, canonical class 31.
pub const CCC31: u8 = 32;

/// Arabic, canonical class 32.
pub const CCC32: u8 = 33;

/// Arabic, canonical class 33.
pub const CCC33: u8 = 27;

/// Arabic, canonical class 34.
pub const CCC34: u8 = 34;

/// Arabic, canonical class 35.
pub const CCC35: u8 = 35;

/// Syriac, canonical class 36.
pub const CCC36: u8 = 36;

/// Telugu, canonical class 84.
pub const CCC84: u8 = 0;

/// Telugu, canonical class 91.
pub const CCC91: u8 = 0;

/// Thai, canonical class 103.
pub const CCC103: u8 = 3;

/// Thai, canonical class 107.
pub const CCC107: u8 = 107;

/// Lao, canonical class 118.
pub const CCC118: u8 = 118;

/// Lao, canonical class 122.
pub const CCC122: u8 = 122;

/// Tibetan, canonical class 129.
pub const CCC129: u8 = 129;

/// Tibetan, canonical class 130.
pub const CCC130: u8 = 132;

/// Tibetan, canonical class 132.
pub const CCC132: u8 = 131;
