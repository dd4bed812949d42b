// Written by tools/plain_rust from crates/shaping_buffer. Do not edit.

//! Deletion of glyphs, as HarfBuzz's `hb_buffer_t` makes it; its manual has a chapter on clusters.

use super::hb_buffer_t;
use crate::glyph_lists::deletion;

impl hb_buffer_t {
    /// Drops the glyph at the cursor, and keeps its cluster where it is lower than its neighbour's. Where
    /// no neighbour shares it, the run of glyphs put out last takes it, if it is lower, and its glyph flags
    /// in place of their own; or with nothing put out, the next glyph is merged with it, as by
    /// `merge_clusters`, which at levels 2 and 3 marks instead and sets the scratch flag
    /// `HB_BUFFER_SCRATCH_FLAG_HAS_GLYPH_FLAGS`.
    ///
    /// # Requires
    ///
    /// An open output, and a glyph at the cursor.
    ///
    /// - `opened: self.old.have_output ≡ true`
    /// - `glyph: 0 < lookahead_len self.old`
    ///
    /// # Proved
    ///
    /// ```text
    /// ensures is { self.new ≡ step.delete_glyph self.old }
    /// ensures keeps { KeepsClusters self.old self.new }
    /// ```
    #[inline(always)]
    pub fn delete_glyph(&mut self) {
        debug_assert!(self.have_output());
        debug_assert!(0 < self.lookahead_len());
        let order = self.cluster_order();
        if order.is_any() && deletion::merges_next(self.sides.out(), self.sides.input()) {
            self.set_has_glyph_flags();
        }
        self.sides.delete_head(order);
    }
}
