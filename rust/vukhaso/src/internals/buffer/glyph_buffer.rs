// Written by tools/plain_rust from crates/shaping_buffer. Do not edit.

//! Shaped glyphs.

use crate::buffer::buffer::hb_buffer_t;
use crate::buffer::unicode_buffer::UnicodeBuffer;
use crate::glyph::{GlyphNames, GlyphPosition, SerializeFlags, hb_glyph_info_t};
use crate::glyph_text::serialize::glyphs_text;
use crate::memory::{AllocError, String};

/// Glyphs with their positions: what shaping gives.
///
/// # Proved
///
/// ```text
/// ghost Value = { State }
/// ghost view = { λ g. g.buffer }
/// ghost invariant = { λ g. HasPositions g.buffer }
/// ```
pub struct GlyphBuffer {
    buffer: hb_buffer_t,
}

impl GlyphBuffer {
    /// The glyphs of a buffer.
    ///
    /// # Requires
    ///
    /// That no output is open and positions are on.
    ///
    /// - `closed: buffer.have_output ≡ false`
    /// - `placed: IsSome buffer.positions`
    ///
    /// # Proved
    ///
    /// ```text
    /// ensures is { result ≡ buffer }
    /// ensures placed { HasPositions result }
    /// ```
    #[inline]
    pub fn from_buffer(buffer: hb_buffer_t) -> Self {
        debug_assert!(!buffer.have_output());
        debug_assert!(buffer.have_positions());
        GlyphBuffer { buffer }
    }

    /// How many glyphs there are.
    ///
    /// # Proved
    ///
    /// ```text
    /// ensures { result ≡ length self.now.input }
    /// ```
    #[inline]
    pub fn len(&self) -> usize {
        self.buffer.len()
    }

    /// Whether there are no glyphs.
    ///
    /// # Proved
    ///
    /// ```text
    /// ensures { IsTrue result ↔ (length self.now.input ≡ 0) }
    /// ```
    #[inline]
    pub fn is_empty(&self) -> bool {
        self.buffer.is_empty()
    }

    /// The glyphs.
    ///
    /// # Proved
    ///
    /// ```text
    /// ensures { result.now ≡ self.now.input }
    /// ```
    #[inline]
    pub fn glyph_infos(&self) -> &[hb_glyph_info_t] {
        self.buffer.info()
    }

    /// The position of each glyph.
    ///
    /// # Proved
    ///
    /// ```text
    /// ensures positions { Some result.now ≡ self.now.positions }
    /// ensures as_many { length result.now ≡ length self.now.input }
    /// ```
    #[inline]
    pub fn glyph_positions(&self) -> &[GlyphPosition] {
        self.buffer.pos()
    }

    /// Whether shaping was given up before its end, for a limit on work or on length: then the glyphs are
    /// those that it had come to. HarfBuzz has the flag inside its buffer, as `shaping_failed`.
    ///
    /// # Proved
    ///
    /// ```text
    /// ensures { result ≡ self.now.shaping_failed }
    /// ```
    #[inline]
    pub fn shaping_failed(&self) -> bool {
        self.buffer.shaping_failed
    }

    /// An empty text, as rustybuzz makes it. The buffer's `max_len`, `max_ops`, `flags`, `invisible` and
    /// `shaping_failed` stay, and all else is as in a new text.
    ///
    /// # Proved
    ///
    /// ```text
    /// ensures { result ≡ cleared self }
    /// ```
    #[inline]
    pub fn clear(self) -> UnicodeBuffer {
        let mut buffer = self.buffer;
        buffer.clear();
        UnicodeBuffer::of_cleared(buffer)
    }

    /// The glyphs as a text, in rustybuzz's form of the format of HarfBuzz's `hb_buffer_serialize_glyphs`:
    /// one text for each glyph, joined by `|`, with no brackets around. A glyph's text is its name, or
    /// `gid` and its number where the font has no name for it; `=` and the cluster; `@x,y`, the offsets,
    /// unless both are 0; `+x`, the advance, and then `,y` unless that is 0; under `GLYPH_FLAGS` `#` and
    /// the glyph flags as a digit, unless they are 0; under `GLYPH_EXTENTS`
    /// `<x_bearing,y_bearing,width,height>`, zeros where the font has none. `NO_GLYPH_NAMES` writes the
    /// number alone, `NO_CLUSTERS` leaves the cluster out, `NO_POSITIONS` offsets and advances, and
    /// `NO_ADVANCES` the advances: then the sums of all earlier advances are added to the offsets.
    ///
    /// A number past 65535 is no glyph's: the font is not asked for its name or its extents. With no glyph
    /// it never does.
    ///
    /// # Errors
    ///
    /// `Err(AllocError)` where memory ran out: then there is no text.
    ///
    /// # Proved
    ///
    /// ```text
    /// ensures is { IfOk result (λ text. string_bytes text ≡ text_of
    ///     (record { name = F.name_of font.now; extents = F.extents_of font.now })
    ///     flags self.now) }
    /// ensures wants { OnErr result (0 < length self.now.input) }
    /// ```
    #[inline]
    pub fn serialize<F: GlyphNames>(
        &self,

        font: &F,
        flags: SerializeFlags,
    ) -> Result<String, AllocError> {
        glyphs_text(font, flags, self.glyph_infos(), self.glyph_positions())
    }
}
