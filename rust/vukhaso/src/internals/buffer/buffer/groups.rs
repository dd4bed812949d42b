// Written by tools/plain_rust from crates/shaping_buffer. Do not edit.

//! Reversals, groups of neighbours, and deletion in place, as HarfBuzz's `hb_buffer_t` has them.

use super::hb_buffer_t;
use crate::glyph::hb_glyph_info_t;
use crate::glyph_lists::deletion_in_place::delete_in_place;
use crate::glyph_lists::{groups, reversal};

impl hb_buffer_t {
    /// Puts the list into reverse order, and its positions with it, where there are any.
    ///
    /// # Requires
    ///
    /// That no output is open.
    ///
    /// - `self.old.have_output ≡ false`
    ///
    /// # Proved
    ///
    /// ```text
    /// ensures is { self.new ≡ step.reverse self.old }
    /// ensures turns { TurnsClusters self.old self.new }
    /// ```
    #[inline]
    pub fn reverse(&mut self) {
        debug_assert!(!self.have_output());
        debug_assert!(!self.sides.is_open());
        reversal::reverse(self.sides.list_mut());
        reversal::reverse(&mut self.pos);
    }

    /// Puts the glyphs from `start` to `end` into reverse order, and their positions with them, where there
    /// are any.
    ///
    /// # Requires
    ///
    /// That no output is open, and `start <= end <= len`.
    ///
    /// - `closed: self.old.have_output ≡ false`
    /// - `order: start ≤ end`
    /// - `within: end ≤ len self.old`
    ///
    /// # Proved
    ///
    /// ```text
    /// ensures is { self.new ≡ step.reverse_range start end self.old }
    /// ensures keeps { IsOneCluster start end self.old → KeepsClusters self.old self.new }
    /// ```
    #[inline]
    pub fn reverse_range(&mut self, start: usize, end: usize) {
        debug_assert!(!self.have_output());
        debug_assert!(start <= end);
        debug_assert!(end <= self.len());
        debug_assert!(!self.sides.is_open());
        groups::reverse_range(self.sides.list_mut(), start, end);
        if self.have_positions {
            groups::reverse_range(&mut self.pos, start, end);
        }
    }

    /// The end of the group that begins at `start`: `group` says of two neighbours whether they are in one
    /// group.
    ///
    /// # Requires
    ///
    /// That no output is open, and a glyph at `start`.
    ///
    /// - `closed: self.now.have_output ≡ false`
    /// - `within: start < len self.now`
    /// - `callable: F.IsAlwaysCallable group`
    ///
    /// # Proved
    ///
    /// ```text
    /// ensures after { start + 1 ≤ result }
    /// ensures until { result ≤ len self.now }
    /// ensures is { (test : groups_of.Test)
    ///     → ((x y : _) (r : _) → F.post group x y r → r ≡ test x.now y.now)
    ///     → result ≡ groups_of.group_end test start self.now.input }
    /// ```
    #[inline]
    pub fn group_end<F: Fn(&hb_glyph_info_t, &hb_glyph_info_t) -> bool>(
        &self,
        start: usize,
        group: F,
    ) -> usize {
        debug_assert!(!self.have_output());
        debug_assert!(start < self.len());
        groups::group_end(self.sides.input(), start, &group)
    }

    /// The end of the syllable that `start` is in: of the glyphs from there on that have the syllable
    /// number of the glyph at `start`. Past the end of the list it is `start` itself.
    ///
    /// # Requires
    ///
    /// That no output is open.
    ///
    /// - `self.now.have_output ≡ false`
    ///
    /// # Proved
    ///
    /// ```text
    /// ensures { result ≡ groups_of.group_end groups_of.share_syllable start self.now.input }
    /// ```
    #[inline]
    pub fn next_syllable(&self, start: usize) -> usize {
        debug_assert!(!self.have_output());
        if start >= self.sides.len() {
            return start;
        }
        groups::group_end(self.sides.input(), start, &|a, b| {
            a.syllable() == b.syllable()
        })
    }

    /// Puts the groups into reverse order, each in its own order, and the positions with their glyphs,
    /// where there are any: `group` says of two neighbours whether they are in one group. Where it is to
    /// merge clusters, each group is merged as by `merge_clusters` before the next one is looked for.
    ///
    /// # Requires
    ///
    /// That no output is open.
    ///
    /// - `closed: self.old.have_output ≡ false`
    /// - `callable: F.IsAlwaysCallable group`
    ///
    /// # Proved
    ///
    /// ```text
    /// ensures is { (test : groups_of.Test)
    ///     → ((x y : _) (r : _) → F.post group x y r → r ≡ test x.now y.now)
    ///     → self.new ≡ step.reverse_groups test merge_clusters self.old }
    /// ensures len { length self.new.input ≡ length self.old.input }
    /// ensures others { step.KeepsOthers self.old self.new }
    /// ensures merging_turns { merge_clusters ≡ true → TurnsClusters self.old self.new }
    /// ensures turns { (test : groups_of.Test)
    ///     → ((x y : _) (r : _) → F.post group x y r → r ≡ test x.now y.now)
    ///     → (any_order self.old ≡ false → ShareClusters test self.old.input)
    ///     → TurnsClusters self.old self.new }
    /// ```
    #[inline]
    pub fn reverse_groups<F: Fn(&hb_glyph_info_t, &hb_glyph_info_t) -> bool>(
        &mut self,
        group: F,
        merge_clusters: bool,
    ) {
        debug_assert!(!self.have_output());
        debug_assert!(!self.sides.is_open());
        let len = self.sides.len();
        let mut start = 0;
        while start < len {
            let end = groups::group_end(self.sides.input(), start, &group);
            self.reverse_group(start, end, merge_clusters);
            start = end;
        }
        self.reverse();
    }

    /// Puts one group into reverse order in its place, merged before where it is to be.
    ///
    /// # Requires
    ///
    /// - `closed: self.old.have_output ≡ false`
    /// - `order: start ≤ end`
    /// - `within: end ≤ len self.old`
    #[inline(always)]
    fn reverse_group(&mut self, start: usize, end: usize, merge_clusters: bool) {
        debug_assert!(!self.have_output());
        debug_assert!(start <= end);
        debug_assert!(end <= self.len());
        if merge_clusters {
            self.merge_clusters(start, end);
        }
        self.reverse_range(start, end);
    }

    /// Deletes the glyphs for which `filter` holds, as a walk over the list does by `delete_glyph` and
    /// `next_glyph`: `filter` sees each glyph as it stands when the walk comes to it. The positions of the
    /// glyphs that are kept stay theirs, and the cursor is at the start.
    ///
    /// # Requires
    ///
    /// That no output is open.
    ///
    /// - `closed: self.old.have_output ≡ false`
    /// - `callable: F.IsAlwaysCallable filter`
    ///
    /// # Proved
    ///
    /// ```text
    /// ensures is { (test : hb_glyph_info_t → Bool)
    ///     → ((x : _) (r : _) → F.post filter x r → r ≡ test x.now)
    ///     → self.new ≡ step.delete_glyphs_inplace test self.old }
    /// ensures within { length self.new.input ≤ length self.old.input }
    /// ensures others { step.KeepsOthers (record self.old { idx = 0 }) self.new }
    /// ensures keeps { (test : hb_glyph_info_t → Bool)
    ///     → ((x : _) (r : _) → F.post filter x r → r ≡ test x.now)
    ///     → KeepsClusters self.old self.new }
    /// ```
    #[inline]
    pub fn delete_glyphs_inplace<F: Fn(&hb_glyph_info_t) -> bool>(&mut self, filter: F) {
        debug_assert!(!self.have_output());
        debug_assert!(!self.sides.is_open());
        let order = self.cluster_order();
        let (kept, merges) = delete_in_place(self.sides.list_mut(), &mut self.pos, order, &filter);
        self.sides.truncate(kept);
        self.pos.truncate(kept);
        if merges {
            self.set_has_glyph_flags();
        }
    }
}
