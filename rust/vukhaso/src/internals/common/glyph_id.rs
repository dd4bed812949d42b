// Written by tools/plain_rust from crates/rb_common. Do not edit.

//! Characters and glyphs, by their numbers.
/// A character of a text: a Unicode scalar value. The name is HarfBuzz's.
pub type hb_codepoint_t = char;

/// The index of a glyph in a font: a 16-bit number, as OpenType's `maxp` table counts glyphs.
#[derive(Clone, Copy, PartialEq, Eq, Hash, Debug)]
pub struct GlyphId(pub u16);
