// Written by tools/plain_rust from crates/rb_glyph. Do not edit.

//! A character before shaping and a glyph after it.

use crate::common::GlyphId;
use crate::glyph::fields::{read_field, write_field};
use crate::glyph::flag_sets::UnicodeProps;
use crate::glyph::glyph_flag;

/// One item of a buffer: a character before shaping, and a glyph after it.
#[derive(Clone, Copy, Debug, Default)]
#[repr(C)]
pub struct hb_glyph_info_t {
    /// A Unicode code point before shaping, and the number of a glyph in the font after it.
    pub glyph_id: u32,
    /// The glyph flags in bits 0 to 2, and above them the features that apply.
    pub mask: u32,
    /// The cluster: where the characters that this stands for begin in the source text.
    pub cluster: u32,
    /// The glyph properties in bits 0 to 15, the ligature properties in bits 16 to 23 and the syllable in bits 24 to
    /// 31; or a glyph index.
    pub var1: u32,
    /// The Unicode properties in bits 0 to 15.
    pub var2: u32,
}

/// The name of `hb_glyph_info_t` for users of the library.
pub type GlyphInfo = hb_glyph_info_t;

impl hb_glyph_info_t {
    /// Whether a line that is broken before this glyph's cluster has to be shaped again on both sides.
    ///
    /// # Proved
    ///
    /// ```text
    /// ensures { IsTrue result ↔ (field self.now.mask 0 1 ≡ 1) }
    /// ```
    #[inline]
    pub fn unsafe_to_break(&self) -> bool {
        self.mask & glyph_flag::UNSAFE_TO_BREAK != 0
    }

    /// The character, of an item that is not shaped yet.
    ///
    /// # Requires
    ///
    /// - `IsScalar self.now.glyph_id`
    ///
    /// # Proved
    ///
    /// ```text
    /// ensures { result ≡ self.now.glyph_id }
    /// ```
    #[inline]
    pub fn as_char(&self) -> char {
        debug_assert!(char::from_u32(self.glyph_id).is_some());
        char::from_u32(self.glyph_id).unwrap()
    }

    /// The glyph, of an item that was shaped. Glyph numbers have 16 bits.
    ///
    /// # Requires
    ///
    /// - `self.now.glyph_id ≤ 65535`
    ///
    /// # Proved
    ///
    /// ```text
    /// ensures { result.0 ≡ self.now.glyph_id }
    /// ```
    #[inline]
    pub fn as_glyph(&self) -> GlyphId {
        debug_assert!(self.glyph_id <= 65535);
        GlyphId(self.glyph_id as u16)
    }

    /// The bits of the item's `UnicodeProps`.
    ///
    /// # Proved
    ///
    /// ```text
    /// ensures { result ≡ field self.now.var2 0 16 }
    /// ```
    #[inline]
    pub fn unicode_props(&self) -> u16 {
        read_field(self.var2, 0, 16) as u16
    }

    /// Sets the bits of the item's `UnicodeProps`.
    ///
    /// # Proved
    ///
    /// ```text
    /// ensures { self.new ≡ record self.old { var2 = with_field self.old.var2 0 16 n } }
    /// ```
    #[inline]
    pub fn set_unicode_props(&mut self, n: u16) {
        write_field(&mut self.var2, 0, 16, n as u32);
    }

    /// Takes `UnicodeProps::HIDDEN`, which is bit 6, from the item's properties.
    ///
    /// # Proved
    ///
    /// ```text
    /// ensures { self.new ≡ record self.old { var2 = with_field self.old.var2 6 1 0 } }
    /// ```
    #[inline]
    pub fn unhide(&mut self) {
        let mut props = UnicodeProps::from_bits_retain(self.unicode_props());
        props.remove(UnicodeProps::HIDDEN);
        self.set_unicode_props(props.bits());
    }

    /// The bits of the glyph's `GlyphPropsFlags`.
    ///
    /// # Proved
    ///
    /// ```text
    /// ensures { result ≡ field self.now.var1 0 16 }
    /// ```
    #[inline]
    pub fn glyph_props(&self) -> u16 {
        read_field(self.var1, 0, 16) as u16
    }

    /// Sets the bits of the glyph's `GlyphPropsFlags`.
    ///
    /// # Proved
    ///
    /// ```text
    /// ensures { self.new ≡ record self.old { var1 = with_field self.old.var1 0 16 n } }
    /// ```
    #[inline]
    pub fn set_glyph_props(&mut self, n: u16) {
        write_field(&mut self.var1, 0, 16, n as u32);
    }

    /// The glyph's part in a ligature.
    ///
    /// # Proved
    ///
    /// ```text
    /// ensures { result ≡ field self.now.var1 16 8 }
    /// ```
    #[inline]
    pub fn lig_props(&self) -> u8 {
        read_field(self.var1, 16, 8) as u8
    }

    /// Sets the glyph's part in a ligature.
    ///
    /// # Proved
    ///
    /// ```text
    /// ensures { self.new ≡ record self.old { var1 = with_field self.old.var1 16 8 n } }
    /// ```
    #[inline]
    pub fn set_lig_props(&mut self, n: u8) {
        write_field(&mut self.var1, 16, 8, n as u32);
    }

    /// The kind and the serial number of the syllable that the glyph belongs to.
    ///
    /// # Proved
    ///
    /// ```text
    /// ensures { result ≡ field self.now.var1 24 8 }
    /// ```
    #[inline]
    pub fn syllable(&self) -> u8 {
        read_field(self.var1, 24, 8) as u8
    }

    /// Sets the kind and the serial number of the glyph's syllable.
    ///
    /// # Proved
    ///
    /// ```text
    /// ensures { self.new ≡ record self.old { var1 = with_field self.old.var1 24 8 n } }
    /// ```
    #[inline]
    pub fn set_syllable(&mut self, n: u8) {
        write_field(&mut self.var1, 24, 8, n as u32);
    }

    /// The number of the character's glyph, which takes the room of the properties and the syllable while
    /// characters are normalized.
    ///
    /// # Proved
    ///
    /// ```text
    /// ensures { result ≡ self.now.var1 }
    /// ```
    #[inline]
    pub fn glyph_index(&self) -> u32 {
        self.var1
    }

    /// Sets the number of the character's glyph.
    ///
    /// # Proved
    ///
    /// ```text
    /// ensures { self.new ≡ record self.old { var1 = n } }
    /// ```
    #[inline]
    pub fn set_glyph_index(&mut self, n: u32) {
        self.var1 = n;
    }
}
