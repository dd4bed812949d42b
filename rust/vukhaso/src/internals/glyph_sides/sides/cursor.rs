// Written by tools/plain_rust from crates/glyph_sides. Do not edit.

//! Glyphs are read at the cursor, and put out.
//!
//! An operation that may want memory answers `Err(AllocError)` where there was none: then nothing changed. That comes
//! only where the output is separate before it or after it, and a side becomes longer.

use super::Sides;
use crate::glyph::hb_glyph_info_t;
use crate::glyph_sides::shifts::{close_gap, leave, put_down};
use crate::memory::AllocError;
use core::mem;

impl Sides {
    /// Moves `n` glyphs at the cursor to the end of the out side; with no output open only the cursor
    /// moves.
    ///
    /// # Requires
    ///
    /// As many glyphs there.
    ///
    /// - `n ≤ lookahead_len self.old`
    ///
    /// # Errors
    ///
    /// `Err(AllocError)` where memory ran out.
    ///
    /// # Proved
    ///
    /// ```text
    /// ensures makes { Makes (lists.next n self.old) self.old result self.new }
    /// ensures in_place { self.old.is_separate ≡ false → IsOk result }
    /// ```
    #[inline(always)]
    pub fn next(&mut self, n: usize) -> Result<(), AllocError> {
        if self.is_separate {
            return self.next_separate(n);
        }
        if self.gap == 0 {
            self.cursor += n;
            return Ok(());
        }
        put_down(&mut self.info, self.cursor - self.gap, self.cursor, n);
        self.cursor += n;
        Ok(())
    }

    /// Moves one glyph.
    ///
    /// # Requires
    ///
    /// One at the cursor.
    ///
    /// - `0 < lookahead_len self.old`
    ///
    /// # Errors
    ///
    /// `Err(AllocError)` where memory ran out.
    ///
    /// # Proved
    ///
    /// ```text
    /// ensures makes { Makes (lists.next 1 self.old) self.old result self.new }
    /// ensures in_place { self.old.is_separate ≡ false → IsOk result }
    /// ```
    #[inline(always)]
    pub fn next_one(&mut self) -> Result<(), AllocError> {
        if self.is_separate {
            return self.next_one_separate();
        }
        if self.gap == 0 {
            self.cursor += 1;
            return Ok(());
        }
        // Once a glyph is written, the cursor would be read from memory again.
        let cursor = self.cursor;
        self.info[cursor - self.gap] = self.info[cursor];
        self.cursor = cursor + 1;
        Ok(())
    }

    /// Behind a separate output. The room is made first, so that the glyph is copied once.
    ///
    /// # Requires
    ///
    /// - `opened: self.old.is_open ≡ true`
    /// - `separate: self.old.is_separate ≡ true`
    /// - `glyph: 0 < length self.old.input`
    #[inline(always)]
    fn next_one_separate(&mut self) -> Result<(), AllocError> {
        debug_assert!(self.is_open());
        debug_assert!(self.is_separate());
        debug_assert!(!self.input().is_empty());
        self.out_info.reserve(1)?;
        self.out_info.push_reserved(self.info[self.cursor]);
        self.cursor += 1;
        Ok(())
    }

    /// # Requires
    ///
    /// - `opened: self.old.is_open ≡ true`
    /// - `separate: self.old.is_separate ≡ true`
    /// - `within: n ≤ length self.old.input`
    #[inline(never)]
    fn next_separate(&mut self, n: usize) -> Result<(), AllocError> {
        debug_assert!(self.is_open());
        debug_assert!(self.is_separate());
        debug_assert!(n <= self.input().len());
        self.out_info
            .extend_from_slice(&self.info[self.cursor..self.cursor + n])?;
        self.cursor += n;
        Ok(())
    }

    /// Drops `count` glyphs at the cursor; with no output open the cursor moves over them.
    ///
    /// # Requires
    ///
    /// As many glyphs there.
    ///
    /// - `count ≤ lookahead_len self.old`
    ///
    /// # Proved
    ///
    /// ```text
    /// ensures { self.new ≡ lists.skip count self.old }
    /// ```
    #[inline(always)]
    pub fn skip(&mut self, count: usize) {
        if self.is_open && !self.is_separate {
            self.gap += count;
        }
        self.cursor += count;
    }

    /// Puts a glyph out, and reads some.
    ///
    /// # Requires
    ///
    /// An open output, and as many glyphs to read.
    ///
    /// - `opened: self.old.is_open ≡ true`
    /// - `within: read ≤ length self.old.input`
    ///
    /// # Errors
    ///
    /// `Err(AllocError)` where memory ran out.
    ///
    /// # Proved
    ///
    /// ```text
    /// ensures { Makes (lists.put (glyph ∷ []) (lists.skip read self.old)) self.old result self.new }
    /// ```
    #[inline(always)]
    pub fn put(&mut self, glyph: hb_glyph_info_t, read: usize) -> Result<(), AllocError> {
        debug_assert!(self.is_open());
        debug_assert!(read <= self.input().len());
        if self.is_separate {
            self.out_info.push(glyph)?;
            self.cursor += read;
            return Ok(());
        }
        let (gap, cursor) = (self.gap, self.cursor);
        if gap + read == 0 {
            return self.put_separate(glyph);
        }
        self.info[cursor - gap] = glyph;
        self.gap = gap + read - 1;
        self.cursor = cursor + read;
        Ok(())
    }

    /// Puts out one glyph more than were read: with those before it, it leaves the storage of the input.
    ///
    /// # Requires
    ///
    /// - `opened: self.old.is_open ≡ true`
    /// - `in_place: self.old.is_separate ≡ false`
    /// - `full: self.old.idx ≤ length self.old.out`
    fn put_separate(&mut self, glyph: hb_glyph_info_t) -> Result<(), AllocError> {
        debug_assert!(self.is_open());
        debug_assert!(!self.is_separate());
        debug_assert!(self.idx() <= self.out_len());
        leave(&mut self.out_info, &self.info[..self.cursor], 1)?;
        self.out_info.push_reserved(glyph);
        self.is_separate = true;
        Ok(())
    }

    /// Closes the output: the list is what was put out, and then what was left to read, and the cursor is
    /// at its start.
    ///
    /// # Requires
    ///
    /// An open output.
    ///
    /// - `self.old.is_open ≡ true`
    ///
    /// # Errors
    ///
    /// `Err(AllocError)` where memory ran out.
    ///
    /// # Proved
    ///
    /// ```text
    /// ensures { Makes (lists.closed self.old) self.old result self.new }
    /// ```
    #[inline(always)]
    pub fn close(&mut self) -> Result<(), AllocError> {
        debug_assert!(self.is_open());
        if self.is_separate {
            return self.close_separate();
        }
        if self.gap > 0 {
            close_gap(&mut self.info, self.cursor - self.gap, self.cursor);
            self.gap = 0;
        }
        self.cursor = 0;
        self.is_open = false;
        Ok(())
    }

    /// # Requires
    ///
    /// - `opened: self.old.is_open ≡ true`
    /// - `separate: self.old.is_separate ≡ true`
    #[inline(never)]
    fn close_separate(&mut self) -> Result<(), AllocError> {
        debug_assert!(self.is_open());
        debug_assert!(self.is_separate());
        if self.out_info.is_empty() {
            close_gap(&mut self.info, 0, self.cursor);
        } else {
            self.out_info.extend_from_slice(&self.info[self.cursor..])?;
            mem::swap(&mut self.info, &mut self.out_info);
            self.out_info.clear();
        }
        self.is_separate = false;
        self.front = 0;
        self.cursor = 0;
        self.is_open = false;
        Ok(())
    }
}
