// Written by tools/plain_rust from crates/shaping_buffer. Do not edit.

//! Merges of clusters, as HarfBuzz's `hb_buffer_t` makes them; its manual has a chapter on clusters and their levels.
//!
//! The places of a range are counted from the start of the input, glyphs that were read among them
//! (`merge_clusters`), or of the out side (`merge_out_clusters`), and the glyph at `end` is not part of it. A glyph
//! whose cluster changes loses its glyph flags, and the others keep theirs.

use super::hb_buffer_t;
use crate::glyph::hb_glyph_info_t;
use crate::glyph_lists::cluster_order::ClusterOrder;
use crate::glyph_lists::clusters;

impl hb_buffer_t {
    /// Puts a glyph into a cluster. Where that changes its cluster, its glyph flags, the low three bits of
    /// its mask, become those of `mask`, and the other bits stay. Else nothing changes.
    ///
    /// # Proved
    ///
    /// ```text
    /// ensures { info.new ≡ with_cluster cluster mask info.old }
    /// ```
    #[inline]
    pub fn set_cluster(info: &mut hb_glyph_info_t, cluster: u32, mask: u32) {
        clusters::set_cluster(info, cluster, mask);
    }

    /// Merges the clusters of the input's glyphs from `start` to `end`, and of the runs at its ends, into
    /// the least of them; a glyph that changes its cluster loses its glyph flags. With no output open the
    /// start is not widened past the cursor. At levels 2 and 3 the glyphs outside the least cluster are
    /// marked as unsafe to break and to concatenate instead, and the scratch flag
    /// `HB_BUFFER_SCRATCH_FLAG_HAS_GLYPH_FLAGS` is set. Fewer than two glyphs stay as they are.
    ///
    /// # Requires
    ///
    /// `start <= end <= len`, and with an output open that `start` is not before the cursor.
    ///
    /// - `order: start ≤ end`
    /// - `within: end ≤ len self.old`
    /// - `past_cursor: self.old.have_output ≡ true → self.old.idx ≤ start`
    ///
    /// # Proved
    ///
    /// ```text
    /// ensures is { self.new ≡ step.merge_clusters start end self.old }
    /// ensures keeps { KeepsClusters self.old self.new }
    /// ```
    #[inline]
    pub fn merge_clusters(&mut self, start: usize, end: usize) {
        debug_assert!(start <= end);
        debug_assert!(end <= self.len());
        debug_assert!(!self.have_output() || self.idx() <= start);
        let order = self.cluster_order();
        if order.is_any() && end - start >= 2 {
            self.set_has_glyph_flags();
        }
        self.sides.merge_input(start, end, order);
    }

    /// Makes a grapheme one cluster: the input's glyphs from `start` to `end`. They are merged as by
    /// `merge_clusters` at level 0, at every level except 1 and 2. At these it is `unsafe_to_break(start,
    /// end)`. Fewer than two glyphs stay as they are. HarfBuzz's call of this name came with its fourth
    /// cluster level.
    ///
    /// # Requires
    ///
    /// What `merge_clusters` requires.
    ///
    /// - `order: start ≤ end`
    /// - `within: end ≤ len self.old`
    /// - `past_cursor: self.old.have_output ≡ true → self.old.idx ≤ start`
    ///
    /// # Proved
    ///
    /// ```text
    /// ensures is { self.new ≡ step.merge_grapheme_clusters start end self.old }
    /// ensures keeps { KeepsClusters self.old self.new }
    /// ```
    #[inline]
    pub fn merge_grapheme_clusters(&mut self, start: usize, end: usize) {
        debug_assert!(start <= end);
        debug_assert!(end <= self.len());
        debug_assert!(!self.have_output() || self.idx() <= start);
        if self.groups_graphemes() {
            self.sides.merge_input(start, end, ClusterOrder::Monotone);
        } else {
            self.unsafe_to_break(Some(start), Some(end));
        }
    }

    /// Merges the clusters of the out side's glyphs from `start` to `end`, and of the runs at its ends,
    /// also into the input, into the least of them; a glyph that changes its cluster loses its glyph flags.
    /// At levels 2 and 3 nothing changes, and fewer than two glyphs stay as they are.
    ///
    /// # Requires
    ///
    /// An open output, and `start <= end <= out_len`.
    ///
    /// - `opened: self.old.have_output ≡ true`
    /// - `order: start ≤ end`
    /// - `within: end ≤ length self.old.out`
    ///
    /// # Proved
    ///
    /// ```text
    /// ensures is { self.new ≡ step.merge_out_clusters start end self.old }
    /// ensures keeps { KeepsClusters self.old self.new }
    /// ```
    #[inline]
    pub fn merge_out_clusters(&mut self, start: usize, end: usize) {
        debug_assert!(self.have_output());
        debug_assert!(start <= end);
        debug_assert!(end <= self.out_len());
        if !self.cluster_order().is_any() {
            self.sides.merge_out(start, end);
        }
    }
}
