// Written by tools/plain_rust from crates/shaping_buffer. Do not edit.

//! Masks of features, as HarfBuzz's `hb_buffer_t` sets them over the ranges of clusters of an `hb_feature_t`.

use super::hb_buffer_t;
use crate::glyph_lists::masks;

impl hb_buffer_t {
    /// Gives each glyph this mask.
    ///
    /// # Requires
    ///
    /// That no output is open.
    ///
    /// - `self.old.have_output ≡ false`
    ///
    /// # Proved
    ///
    /// ```text
    /// ensures is { self.new ≡ step.reset_masks mask self.old }
    /// ensures keeps { KeepsClusters self.old self.new }
    /// ```
    #[inline]
    pub fn reset_masks(&mut self, mask: u32) {
        debug_assert!(!self.have_output());
        masks::reset_masks(self.sides.list_mut(), mask);
    }

    /// Gives the bits of `mask` those of `value`, in each glyph whose cluster is at least `cluster_start`
    /// and below `cluster_end`. The range from 0 to `u32::MAX` is all clusters, and the mask 0 changes
    /// nothing.
    ///
    /// # Requires
    ///
    /// That no output is open.
    ///
    /// - `self.old.have_output ≡ false`
    ///
    /// # Proved
    ///
    /// ```text
    /// ensures is { self.new ≡ step.set_masks value mask cluster_start cluster_end self.old }
    /// ensures keeps { KeepsClusters self.old self.new }
    /// ```
    #[inline]
    pub fn set_masks(&mut self, value: u32, mask: u32, cluster_start: u32, cluster_end: u32) {
        debug_assert!(!self.have_output());
        masks::set_masks(
            self.sides.list_mut(),
            value,
            mask,
            cluster_start,
            cluster_end,
        );
    }
}
