// Written by tools/plain_rust from crates/glyph_sides. Do not edit.

//! Single glyphs and whole sides, to be read and to be written.

use super::Sides;
use crate::glyph::hb_glyph_info_t;
use crate::glyph_sides::lend::front_mut;

impl Sides {
    /// The glyph `i` places after the cursor.
    ///
    /// # Requires
    ///
    /// That there is one.
    ///
    /// - `i < lookahead_len self.now`
    ///
    /// # Proved
    ///
    /// ```text
    /// ensures { result.now ≡ slice_index_or self.now.input (place_of self.now i) result.now }
    /// ```
    #[inline(always)]
    pub fn cur(&self, i: usize) -> &hb_glyph_info_t {
        &self.info[self.cursor + i]
    }

    /// The glyph `i` places after the cursor, to be written.
    ///
    /// # Requires
    ///
    /// - `i < lookahead_len self.old`
    ///
    /// # Proved
    ///
    /// ```text
    /// ensures writes_back { sem 𝓛 (LendsCur self.entry i result) }
    /// ensures value { result.now
    ///     ≡ slice_index_or self.old.input (place_of self.old i) result.now }
    /// ```
    #[inline(always)]
    pub fn cur_mut(&mut self, i: usize) -> &mut hb_glyph_info_t {
        &mut self.info[self.cursor + i]
    }

    /// The last glyph that was put out, to be written.
    ///
    /// # Requires
    ///
    /// - `0 < length self.old.out`
    ///
    /// # Proved
    ///
    /// ```text
    /// ensures writes_back { sem 𝓛 (LendsLast self.entry result) }
    /// ensures value { result.now
    ///     ≡ slice_index_or self.old.out (length self.old.out - 1) result.now }
    /// ```
    #[inline(always)]
    pub fn last_mut(&mut self) -> &mut hb_glyph_info_t {
        debug_assert!(0 < self.out_len());
        if self.is_separate {
            let last = self.out_info.len() - 1;
            return &mut self.out_info[last];
        }
        let last = self.placed() - 1;
        &mut self.info[last]
    }

    /// The glyphs that were put out, to be written.
    ///
    /// # Proved
    ///
    /// ```text
    /// ensures writes_back { sem 𝓛 (LendsOut self.entry result) }
    /// ensures value { result.now ≡ self.old.out }
    /// ```
    #[inline(always)]
    pub fn out_mut(&mut self) -> &mut [hb_glyph_info_t] {
        if self.is_separate {
            return &mut self.out_info;
        }
        let placed = self.placed();
        front_mut(&mut self.info, placed)
    }

    /// The list, to be written.
    ///
    /// # Requires
    ///
    /// That no output is open.
    ///
    /// - `self.old.is_open ≡ false`
    ///
    /// # Proved
    ///
    /// ```text
    /// ensures writes_back { sem 𝓛 (LendsInput self.entry result) }
    /// ensures value { result.now ≡ self.old.input }
    /// ```
    #[inline(always)]
    pub fn list_mut(&mut self) -> &mut [hb_glyph_info_t] {
        debug_assert!(!self.is_open());
        &mut self.info
    }
}
