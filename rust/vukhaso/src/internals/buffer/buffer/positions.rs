// Written by tools/plain_rust from crates/shaping_buffer. Do not edit.

//! Positions: where each glyph is drawn.

use super::hb_buffer_t;
use crate::glyph::GlyphPosition;

impl hb_buffer_t {
    /// The position of each glyph.
    ///
    /// # Requires
    ///
    /// That positions are on.
    ///
    /// - `IsSome self.now.positions`
    ///
    /// # Proved
    ///
    /// ```text
    /// ensures positions { Some result.now ≡ self.now.positions }
    /// ensures as_many { length result.now ≡ len self.now }
    /// ```
    #[inline]
    pub fn pos(&self) -> &[GlyphPosition] {
        debug_assert!(self.have_positions());
        &self.pos
    }

    /// Turns positions on, all 0, one for each glyph. It takes no memory.
    ///
    /// # Requires
    ///
    /// That no output is open.
    ///
    /// - `self.old.have_output ≡ false`
    ///
    /// # Proved
    ///
    /// ```text
    /// ensures is { self.new ≡ with_zero_positions self.old }
    /// ensures keeps { KeepsClusters self.old self.new }
    /// ```
    #[inline]
    pub fn clear_positions(&mut self) {
        debug_assert!(!self.have_output());
        let zero = GlyphPosition {
            x_advance: 0,
            y_advance: 0,
            x_offset: 0,
            y_offset: 0,
            var: 0,
        };
        self.pos.clear();
        // This takes no memory: each call that grows the list, and `sync`, reserved room for as many positions.
        self.pos.resize(self.sides.len(), zero).unwrap();
        self.have_positions = true;
    }
}
