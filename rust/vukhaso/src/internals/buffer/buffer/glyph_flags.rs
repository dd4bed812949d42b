// Written by tools/plain_rust from crates/shaping_buffer. Do not edit.

//! Glyph flags: where a line may be broken, concatenated or stretched. They are HarfBuzz's `hb_glyph_flags_t`:
//! `HB_GLYPH_FLAG_UNSAFE_TO_BREAK`, `HB_GLYPH_FLAG_UNSAFE_TO_CONCAT` and `HB_GLYPH_FLAG_SAFE_TO_INSERT_TATWEEL`,
//! which its `hb_buffer_t` sets by these calls.
//!
//! The places of a range are counted from the start of the input, glyphs that were read among them, and the glyph at
//! `end` is not part of it. In the `_from_outbuffer` calls, while an output is open, `start` is counted from the start
//! of the out side. No call changes a cluster. A call that may have marked glyphs also sets the scratch flag
//! `HB_BUFFER_SCRATCH_FLAG_HAS_GLYPH_FLAGS`: each says when.

use super::hb_buffer_t;
use crate::glyph::{BufferFlags, glyph_flag};
use crate::glyph_lists::glyph_flags::BREAK_BITS;
use crate::glyph_lists::range_change::RangeChange;

/// What the calls named for it add: all glyphs of the range are unsafe to concatenate.
const ALL_UNSAFE_TO_CONCAT: RangeChange = RangeChange::Mark {
    bits: glyph_flag::UNSAFE_TO_CONCAT,
};

impl hb_buffer_t {
    /// Marks the input's glyphs from `start` (the origin) to `end` (the length, to which it is cut) that
    /// are not in the least cluster as unsafe to break and to concatenate before. At levels 2 and 3, and on
    /// monotone clusters, these are all such glyphs; else the scan goes by the clusters at the ends. Fewer
    /// than two glyphs stay as they are; else it sets the scratch flag.
    ///
    /// # Requires
    ///
    /// `start <= end`, and with an output open that `start` is not before the cursor.
    ///
    /// - `order: range_start start ≤ range_end end self.old`
    /// - `past_cursor: self.old.have_output ≡ true → self.old.idx ≤ range_start start`
    ///
    /// # Proved
    ///
    /// ```text
    /// ensures is { self.new ≡ step.unsafe_to_break start end self.old }
    /// ensures keeps { KeepsClusters self.old self.new }
    /// ```
    #[inline(always)]
    pub fn unsafe_to_break(&mut self, start: Option<usize>, end: Option<usize>) {
        debug_assert!(start.unwrap_or(0) <= end.unwrap_or(self.len()).min(self.len()));
        debug_assert!(!self.have_output() || self.idx() <= start.unwrap_or(0));
        self.plain_scan(BREAK_BITS, start, end);
    }

    /// Marks as `unsafe_to_break` does, over both sides while an output is open: the out side from `start`,
    /// and the input from the cursor to `end`. It always sets the scratch flag.
    ///
    /// # Requires
    ///
    /// With an output open `start <= out_len` and that `end` is not before the cursor, and else `start <=
    /// end`.
    ///
    /// - `order: self.old.have_output ≡ false → range_start start ≤ range_end end self.old`
    /// - `from_out: self.old.have_output ≡ true → range_start start ≤ length self.old.out`
    /// - `past_cursor: self.old.have_output ≡ true → self.old.idx ≤ range_end end self.old`
    ///
    /// # Proved
    ///
    /// ```text
    /// ensures is { self.new ≡ step.unsafe_to_break_from_outbuffer start end self.old }
    /// ensures keeps { KeepsClusters self.old self.new }
    /// ```
    #[inline]
    pub fn unsafe_to_break_from_outbuffer(&mut self, start: Option<usize>, end: Option<usize>) {
        debug_assert!(
            self.have_output() || start.unwrap_or(0) <= end.unwrap_or(self.len()).min(self.len())
        );
        debug_assert!(!self.have_output() || start.unwrap_or(0) <= self.out_len());
        debug_assert!(
            !self.have_output() || self.idx() <= end.unwrap_or(self.len()).min(self.len())
        );
        let to = self.both_place(self.range_end(end));
        let scan = RangeChange::Scan {
            bits: BREAK_BITS,
            order: self.cluster_order(),
        };
        self.flag_range(start.unwrap_or(0), to, scan);
    }

    /// Marks the glyphs that `unsafe_to_break` would mark: as places where a tatweel may be put in, if the
    /// flag `PRODUCE_SAFE_TO_INSERT_TATWEEL` asks for that, and else as unsafe to break. It sets the
    /// scratch flag in the same cases.
    ///
    /// # Requires
    ///
    /// What `unsafe_to_break` requires.
    ///
    /// - `order: range_start start ≤ range_end end self.old`
    /// - `past_cursor: self.old.have_output ≡ true → self.old.idx ≤ range_start start`
    ///
    /// # Proved
    ///
    /// ```text
    /// ensures is { self.new ≡ step.safe_to_insert_tatweel start end self.old }
    /// ensures keeps { KeepsClusters self.old self.new }
    /// ```
    #[inline]
    pub fn safe_to_insert_tatweel(&mut self, start: Option<usize>, end: Option<usize>) {
        debug_assert!(start.unwrap_or(0) <= end.unwrap_or(self.len()).min(self.len()));
        debug_assert!(!self.have_output() || self.idx() <= start.unwrap_or(0));
        let bits = if self.asks(BufferFlags::PRODUCE_SAFE_TO_INSERT_TATWEEL) {
            glyph_flag::SAFE_TO_INSERT_TATWEEL
        } else {
            BREAK_BITS
        };
        self.plain_scan(bits, start, end);
    }

    /// Marks all the input's glyphs from `start` to `end` as unsafe to concatenate, if the flag
    /// `PRODUCE_UNSAFE_TO_CONCAT` asks for that. Then it sets the scratch flag, whatever the range, and
    /// else nothing changes.
    ///
    /// # Requires
    ///
    /// What `unsafe_to_break` requires.
    ///
    /// - `order: range_start start ≤ range_end end self.old`
    /// - `past_cursor: self.old.have_output ≡ true → self.old.idx ≤ range_start start`
    ///
    /// # Proved
    ///
    /// ```text
    /// ensures is { self.new ≡ step.unsafe_to_concat start end self.old }
    /// ensures keeps { KeepsClusters self.old self.new }
    /// ```
    #[inline]
    pub fn unsafe_to_concat(&mut self, start: Option<usize>, end: Option<usize>) {
        debug_assert!(start.unwrap_or(0) <= end.unwrap_or(self.len()).min(self.len()));
        debug_assert!(!self.have_output() || self.idx() <= start.unwrap_or(0));
        if !self.asks(BufferFlags::PRODUCE_UNSAFE_TO_CONCAT) {
            return;
        }
        let from = self.both_place(start.unwrap_or(0));
        let to = self.both_place(self.range_end(end));
        self.flag_range(from, to, ALL_UNSAFE_TO_CONCAT);
    }

    /// Marks as `unsafe_to_concat` does, over both sides while an output is open: the out side from
    /// `start`, and the input from the cursor to `end`.
    ///
    /// # Requires
    ///
    /// What `unsafe_to_break_from_outbuffer` requires.
    ///
    /// - `order: self.old.have_output ≡ false → range_start start ≤ range_end end self.old`
    /// - `from_out: self.old.have_output ≡ true → range_start start ≤ length self.old.out`
    /// - `past_cursor: self.old.have_output ≡ true → self.old.idx ≤ range_end end self.old`
    ///
    /// # Proved
    ///
    /// ```text
    /// ensures is { self.new ≡ step.unsafe_to_concat_from_outbuffer start end self.old }
    /// ensures keeps { KeepsClusters self.old self.new }
    /// ```
    #[inline]
    pub fn unsafe_to_concat_from_outbuffer(&mut self, start: Option<usize>, end: Option<usize>) {
        debug_assert!(
            self.have_output() || start.unwrap_or(0) <= end.unwrap_or(self.len()).min(self.len())
        );
        debug_assert!(!self.have_output() || start.unwrap_or(0) <= self.out_len());
        debug_assert!(
            !self.have_output() || self.idx() <= end.unwrap_or(self.len()).min(self.len())
        );
        if !self.asks(BufferFlags::PRODUCE_UNSAFE_TO_CONCAT) {
            return;
        }
        let to = self.both_place(self.range_end(end));
        self.flag_range(start.unwrap_or(0), to, ALL_UNSAFE_TO_CONCAT);
    }

    /// Whether the buffer's flags ask for this.
    fn asks(&self, flag: BufferFlags) -> bool {
        self.flags.contains(flag)
    }

    /// A scan of the input from `start` to `end`, unless there are fewer than two glyphs. It lies in the
    /// one slice, whatever stands on the out side.
    ///
    /// # Requires
    ///
    /// - `order: range_start start ≤ range_end end self.old`
    /// - `past_cursor: self.old.have_output ≡ true → self.old.idx ≤ range_start start`
    #[inline(always)]
    fn plain_scan(&mut self, bits: u32, start: Option<usize>, end: Option<usize>) {
        debug_assert!(start.unwrap_or(0) <= end.unwrap_or(self.len()).min(self.len()));
        debug_assert!(!self.have_output() || self.idx() <= start.unwrap_or(0));
        let from = start.unwrap_or(0);
        let to = self.range_end(end);
        if to - from < 2 {
            return;
        }
        let order = self.cluster_order();
        self.set_has_glyph_flags();
        self.sides.scan_input(from, to, bits, order);
    }

    /// The end of a flag call's range, cut to the length.
    #[inline(always)]
    fn range_end(&self, end: Option<usize>) -> usize {
        let len = self.sides.len();
        end.unwrap_or(len).min(len)
    }

    /// A change of the glyph flags of both sides from `from` to `to`, which is in the input.
    ///
    /// # Requires
    ///
    /// - `past_out: length self.old.out ≤ to`
    /// - `order: from ≤ to`
    /// - `within: to ≤ length (step.both self.old)`
    fn flag_range(&mut self, from: usize, to: usize, change: RangeChange) {
        debug_assert!(self.out_len() <= to);
        debug_assert!(from <= to);
        self.set_has_glyph_flags();
        self.sides.change_range(from, to, change);
    }
}
