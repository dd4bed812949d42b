// Written by tools/plain_rust from crates/glyph_sides. Do not edit.

//! Both sides as one list: merges and glyph flags of a range of it, and deletion of the current glyph.

use super::Sides;
use crate::glyph_lists::cluster_order::ClusterOrder;
use crate::glyph_lists::range_change::{self, RangeChange};
use crate::glyph_lists::{deletion, glyph_flags, merging};
use crate::glyph_sides::one_slice;

impl Sides {
    /// Merges the input's glyphs from `start` to `end`, counted from its start, or in any order of clusters
    /// marks them. With an output open, `start` is at the cursor or after it. With none the range is not
    /// widened past the cursor.
    ///
    /// # Requires
    ///
    /// - `from_cursor: self.old.is_open ≡ true → self.old.idx ≤ start`
    /// - `range: start ≤ end`
    /// - `within: end ≤ len self.old`
    ///
    /// # Proved
    ///
    /// ```text
    /// ensures is { self.new ≡ input_merged (is_any order) start end self.old }
    /// ensures out_len { length self.new.out ≡ length self.old.out }
    /// ensures input_len { length self.new.input ≡ length self.old.input }
    /// ```
    #[inline(always)]
    pub fn merge_input(&mut self, start: usize, end: usize, order: ClusterOrder) {
        debug_assert!(!self.is_open() || self.idx() <= start);
        debug_assert!(start <= end);
        debug_assert!(end <= self.len());
        if !self.is_open {
            self.merge_list(start, end, order);
            return;
        }
        let at = self.cursor;
        let from = self.front + start - at;
        let to = self.front + end - at;
        if self.is_separate {
            merging::merge_input(&mut self.out_info, &mut self.info[at..], from, to, order);
            return;
        }
        one_slice::merge_input(&mut self.info, at - self.gap..at, from, to, order);
    }

    /// Merges, or marks, the glyphs of the list from `start` to `end`.
    ///
    /// # Requires
    ///
    /// That no output is open.
    ///
    /// - `closed: self.old.is_open ≡ false`
    /// - `range: start ≤ end`
    /// - `within: end ≤ length self.old.input`
    #[inline(always)]
    fn merge_list(&mut self, start: usize, end: usize, order: ClusterOrder) {
        debug_assert!(!self.is_open());
        debug_assert!(start <= end);
        debug_assert!(end <= self.input().len());
        merging::merge_slice(&mut self.info, start, end, self.cursor, order);
    }

    /// Merges the glyphs of the out side from `start` to `end`.
    ///
    /// # Requires
    ///
    /// An open output.
    ///
    /// - `opened: self.old.is_open ≡ true`
    /// - `range: start ≤ end`
    /// - `within: end ≤ length self.old.out`
    ///
    /// # Proved
    ///
    /// ```text
    /// ensures is { self.new ≡ with_both (run_merge (both self.old) start end 0) self.old }
    /// ensures out_len { length self.new.out ≡ length self.old.out }
    /// ensures input_len { length self.new.input ≡ length self.old.input }
    /// ```
    #[inline(always)]
    pub fn merge_out(&mut self, start: usize, end: usize) {
        debug_assert!(self.is_open());
        debug_assert!(start <= end);
        debug_assert!(end <= self.out_len());
        let at = self.cursor;
        if self.is_separate {
            merging::merge_out(&mut self.out_info, &mut self.info[at..], start, end);
            return;
        }
        one_slice::merge_out(&mut self.info, at - self.gap..at, start, end);
    }

    /// Changes the glyph flags of the glyphs from place `from` to place `to`, which is in the input.
    ///
    /// # Requires
    ///
    /// - `past_out: length self.old.out ≤ to`
    /// - `range: from ≤ to`
    /// - `within: to ≤ length (both self.old)`
    ///
    /// # Proved
    ///
    /// ```text
    /// ensures is { self.new ≡ with_both
    ///     (changed change (length self.old.out) (both self.old) from to) self.old }
    /// ensures out_len { length self.new.out ≡ length self.old.out }
    /// ensures input_len { length self.new.input ≡ length self.old.input }
    /// ```
    #[inline(always)]
    pub fn change_range(&mut self, from: usize, to: usize, change: RangeChange) {
        debug_assert!(self.out_len() <= to);
        debug_assert!(from <= to);
        let at = if self.is_open { self.cursor } else { 0 };
        if self.is_separate {
            let input = &mut self.info[at..];
            range_change::change(&mut self.out_info, input, from, to, change);
            return;
        }
        one_slice::change(&mut self.info, at - self.gap..at, from, to, change);
    }

    /// Scans the input's glyphs from `start` to `end`, counted from its start. With an output open, `start`
    /// is at the cursor or after it. The range lies in the one slice, whatever stands on the out side.
    ///
    /// # Requires
    ///
    /// - `from_cursor: self.old.is_open ≡ true → self.old.idx ≤ start`
    /// - `range: start ≤ end`
    /// - `within: end ≤ len self.old`
    ///
    /// # Proved
    ///
    /// ```text
    /// ensures is { self.new ≡ record self.old {
    ///       input = on_part (scan_of (is_any order) bits) self.old.input
    ///           (input_place start self.old) (input_place end self.old);
    ///     } }
    /// ensures out_len { length self.new.out ≡ length self.old.out }
    /// ensures input_len { length self.new.input ≡ length self.old.input }
    /// ```
    #[inline(always)]
    pub fn scan_input(&mut self, start: usize, end: usize, bits: u32, order: ClusterOrder) {
        debug_assert!(!self.is_open() || self.idx() <= start);
        debug_assert!(start <= end);
        debug_assert!(end <= self.len());
        let from = self.front + start;
        let to = self.front + end;
        glyph_flags::scan_slice(&mut self.info[from..to], bits, order);
    }

    /// Drops the current glyph, and keeps its cluster.
    ///
    /// # Requires
    ///
    /// An open output, and a glyph at the cursor.
    ///
    /// - `opened: self.old.is_open ≡ true`
    /// - `glyph: 0 < length self.old.input`
    ///
    /// # Proved
    ///
    /// ```text
    /// ensures is { self.new ≡ head_deleted (is_any order) self.old }
    /// ensures out_len { length self.new.out ≡ length self.old.out }
    /// ensures input_len { length self.new.input + 1 ≡ length self.old.input }
    /// ```
    #[inline(always)]
    pub fn delete_head(&mut self, order: ClusterOrder) {
        debug_assert!(self.is_open());
        debug_assert!(!self.input().is_empty());
        if self.is_separate {
            let at = self.cursor;
            deletion::keep_cluster(&mut self.out_info, &mut self.info[at..], order);
            self.cursor += 1;
            return;
        }
        let (gap, cursor) = (self.gap, self.cursor);
        one_slice::keep_cluster(&mut self.info, cursor - gap..cursor, order);
        self.gap = gap + 1;
        self.cursor = cursor + 1;
    }
}
