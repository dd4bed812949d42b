// Written by tools/plain_rust from crates/shaping_buffer. Do not edit.

//! Replacement of several glyphs at once, as HarfBuzz's `hb_buffer_t` makes it where a ligature is formed or a glyph is
//! decomposed.

use super::hb_buffer_t;
use crate::memory::AllocError;

impl hb_buffer_t {
    /// Merges the first `num_in` glyphs at the cursor as `merge_clusters` does, which at levels 2 and 3
    /// marks them instead, and puts out copies of the first, as it then is, in place of them, under the
    /// first `num_out` ids of `glyph_data`.
    ///
    /// # Requires
    ///
    /// An open output, a glyph at the cursor, as many glyphs there and as many ids.
    ///
    /// - `opened: self.old.have_output ≡ true`
    /// - `glyph: 0 < lookahead_len self.old`
    /// - `within: num_in ≤ lookahead_len self.old`
    /// - `ids: num_out ≤ length glyph_data.now`
    ///
    /// # Errors
    ///
    /// `Ok(false)` where the out side would grow too long: then only `successful` changes.
    /// `Err(AllocError)` where memory ran out: then nothing changed.
    ///
    /// # Proved
    ///
    /// ```text
    /// ensures meets { Meets (step.replace_glyphs num_in (take num_out glyph_data.now) self.old)
    ///     self.old result self.new }
    /// ensures keeps_order { KeepsClusterOrder self.old self.new }
    /// ensures keeps { 0 < num_out → KeepsClusters self.old self.new }
    /// ensures in_place { self.old.have_separate_output ≡ false → num_out ≤ num_in → result ≡ Ok true }
    /// ```
    // Inlined as in HarfBuzz, where it is a template: a caller mostly knows both counts.
    #[inline(always)]
    pub fn replace_glyphs(
        &mut self,
        num_in: usize,
        num_out: usize,
        glyph_data: &[u32],
    ) -> Result<bool, AllocError> {
        debug_assert!(self.have_output());
        debug_assert!(0 < self.lookahead_len());
        debug_assert!(num_in <= self.lookahead_len());
        debug_assert!(num_out <= glyph_data.len());
        let ids = &glyph_data[..num_out];
        let order = self.cluster_order();
        let max_len = self.max_len;
        if self.sides.replace_kept(num_in, ids, order, max_len) {
            return Ok(true);
        }
        self.replace_any(num_in, ids)
    }

    /// Does that in any case: where the copies are too many or have no room, and where the merge changes
    /// glyphs.
    ///
    /// # Requires
    ///
    /// - `opened: self.old.have_output ≡ true`
    /// - `glyph: 0 < length self.old.input`
    /// - `within: count ≤ length self.old.input`
    #[inline(never)]
    fn replace_any(&mut self, count: usize, ids: &[u32]) -> Result<bool, AllocError> {
        debug_assert!(self.have_output());
        debug_assert!(!self.info().is_empty());
        debug_assert!(count <= self.info().len());
        if ids.len() > self.max_len - self.sides.out_len() {
            self.successful = false;
            return Ok(false);
        }
        let order = self.cluster_order();
        self.sides.replace(count, ids, order)?;
        if order.is_any() && count >= 2 {
            self.set_has_glyph_flags();
        }
        Ok(true)
    }
}
