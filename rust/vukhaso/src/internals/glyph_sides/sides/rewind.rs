// Written by tools/plain_rust from crates/glyph_sides. Do not edit.

//! Rewinds: glyphs that were put out are to be read again.

use super::Sides;
use crate::glyph_sides::shifts::{open_gap, reserve_ample, shift_up, write_before};
use crate::memory::AllocError;

impl Sides {
    /// Rewinds to place `i`: all but the first `i` glyphs that were put out are to be read again. In place
    /// they move up to the cursor, over themselves if few were dropped; if none was, only the cursor moves.
    ///
    /// # Requires
    ///
    /// That there are more than `i`.
    ///
    /// - `i < length self.old.out`
    ///
    /// # Errors
    ///
    /// `Err(AllocError)` where memory ran out.
    ///
    /// # Proved
    ///
    /// ```text
    /// ensures { Makes (lists.rewind i self.old) self.old result self.new }
    /// ```
    #[inline(always)]
    pub fn rewind(&mut self, i: usize) -> Result<(), AllocError> {
        debug_assert!(i < self.out_len());
        if self.is_separate {
            return self.rewind_separate(i);
        }
        if self.gap == 0 {
            self.cursor = i;
            return Ok(());
        }
        shift_up(&mut self.info, i, self.cursor - self.gap, self.cursor);
        self.cursor = i + self.gap;
        Ok(())
    }

    /// Does so where the output is separate: the glyphs go into the places before the cursor. If these are
    /// too few, the input first moves up by as many places as it has glyphs, or as come back to it, so that
    /// many rewinds cost no more than the glyphs that they move. Memory is asked for only if the vector
    /// lacks room for the missing places; if it has room for no more than these, the input moves up by
    /// these alone.
    ///
    /// # Requires
    ///
    /// - `separate: self.old.is_separate ≡ true`
    /// - `behind: i < length self.old.out`
    fn rewind_separate(&mut self, i: usize) -> Result<(), AllocError> {
        debug_assert!(self.is_separate());
        debug_assert!(i < self.out_len());
        let count = self.out_info.len() - i;
        if count > self.cursor {
            let ample = count.max(self.info.len() - self.cursor);
            let more = reserve_ample(&mut self.info, count - self.cursor, ample)?;
            open_gap(&mut self.info, self.cursor, more);
            self.cursor += more;
            write_before(&mut self.info, self.cursor, &self.out_info[i..]);
            self.cursor -= count;
            self.front = self.cursor;
        } else {
            write_before(&mut self.info, self.cursor, &self.out_info[i..]);
            self.cursor -= count;
            self.front = self.front.min(self.cursor);
        }
        self.out_info.truncate(i);
        Ok(())
    }
}
