// Written by tools/plain_rust from crates/shaping_buffer. Do not edit.

//! Single glyphs and whole slices, to be read and to be written.

use super::hb_buffer_t;
use crate::glyph::{GlyphPosition, hb_glyph_info_t};

impl hb_buffer_t {
    /// The glyph `i` places after the cursor.
    ///
    /// # Requires
    ///
    /// That there is one.
    ///
    /// - `i < lookahead_len self.now`
    ///
    /// # Proved
    ///
    /// ```text
    /// ensures { result.now ≡ slice_index_or self.now.input (place_of self.now i) result.now }
    /// ```
    #[inline]
    pub fn cur(&self, i: usize) -> &hb_glyph_info_t {
        debug_assert!(i < self.lookahead_len());
        self.sides.cur(i)
    }

    /// The glyph `i` places after the cursor, to be written: that glyph alone changes.
    ///
    /// # Requires
    ///
    /// That there is one.
    ///
    /// - `i < lookahead_len self.old`
    ///
    /// # Proved
    ///
    /// ```text
    /// ensures writes_back { sem 𝓛 (LendsCur self.entry i result) }
    /// ensures value { result.now
    ///     ≡ slice_index_or self.old.input (place_of self.old i) result.now }
    /// ```
    #[inline]
    pub fn cur_mut(&mut self, i: usize) -> &mut hb_glyph_info_t {
        debug_assert!(i < self.lookahead_len());
        self.sides.cur_mut(i)
    }

    /// The last glyph that was put out.
    ///
    /// # Requires
    ///
    /// That there is one.
    ///
    /// - `0 < length self.now.out`
    ///
    /// # Proved
    ///
    /// ```text
    /// ensures { result.now ≡ slice_index_or self.now.out (length self.now.out - 1) result.now }
    /// ```
    #[inline]
    pub fn prev(&self) -> &hb_glyph_info_t {
        debug_assert!(0 < self.out_len());
        let out = self.sides.out();
        &out[out.len() - 1]
    }

    /// The last glyph that was put out, to be written: that glyph alone changes.
    ///
    /// # Requires
    ///
    /// That there is one.
    ///
    /// - `0 < length self.old.out`
    ///
    /// # Proved
    ///
    /// ```text
    /// ensures writes_back { sem 𝓛 (LendsPrev self.entry result) }
    /// ensures value { result.now
    ///     ≡ slice_index_or self.old.out (length self.old.out - 1) result.now }
    /// ```
    #[inline]
    pub fn prev_mut(&mut self) -> &mut hb_glyph_info_t {
        debug_assert!(0 < self.out_len());
        self.sides.last_mut()
    }

    /// The glyphs that were put out, to be written: nothing but them changes.
    ///
    /// # Proved
    ///
    /// ```text
    /// ensures writes_back { sem 𝓛 (LendsOut self.entry result) }
    /// ensures value { result.now ≡ self.old.out }
    /// ```
    #[inline]
    pub fn out_info_mut(&mut self) -> &mut [hb_glyph_info_t] {
        self.sides.out_mut()
    }

    /// The list, to be written: nothing but its glyphs changes.
    ///
    /// # Requires
    ///
    /// That no output is open.
    ///
    /// - `self.old.have_output ≡ false`
    ///
    /// # Proved
    ///
    /// ```text
    /// ensures writes_back { sem 𝓛 (LendsInput self.entry result) }
    /// ensures value { result.now ≡ self.old.input }
    /// ```
    #[inline]
    pub fn info_slice_mut(&mut self) -> &mut [hb_glyph_info_t] {
        debug_assert!(!self.have_output());
        self.sides.list_mut()
    }

    /// The position at the cursor, to be written: it alone changes.
    ///
    /// # Requires
    ///
    /// Positions, and a glyph at the cursor.
    ///
    /// - `placed: IsSome self.old.positions`
    /// - `glyph: 0 < lookahead_len self.old`
    ///
    /// # Proved
    ///
    /// ```text
    /// ensures writes_back { sem 𝓛 (LendsCurPos self.entry result) }
    /// ensures value { result.now
    ///     ≡ slice_index_or (unwrap_or self.old.positions []) self.old.idx result.now }
    /// ```
    #[inline]
    pub fn cur_pos_mut(&mut self) -> &mut GlyphPosition {
        debug_assert!(self.have_positions());
        debug_assert!(0 < self.lookahead_len());
        let at = self.sides.idx();
        &mut self.pos[at]
    }

    /// The position of each glyph, to be written: nothing but positions changes.
    ///
    /// # Requires
    ///
    /// Positions.
    ///
    /// - `IsSome self.old.positions`
    ///
    /// # Proved
    ///
    /// ```text
    /// ensures writes_back { sem 𝓛 (LendsPositions self.entry result) }
    /// ensures value { Some result.now ≡ self.old.positions }
    /// ensures as_many { length result.now ≡ len self.old }
    /// ```
    #[inline]
    pub fn pos_mut(&mut self) -> &mut [GlyphPosition] {
        debug_assert!(self.have_positions());
        &mut self.pos
    }
}
