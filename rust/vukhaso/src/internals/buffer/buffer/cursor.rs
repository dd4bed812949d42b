// Written by tools/plain_rust from crates/shaping_buffer. Do not edit.

//! The cursor calls: glyphs are read at the cursor, and put out. They are those of HarfBuzz's `hb_buffer_t`.
//!
//! A call that allocates answers `Err(AllocError)` when memory runs out: then nothing changed. That happens only
//! where the output is separate before the call, or would be after it, and a side would become longer.

use super::hb_buffer_t;
use crate::glyph::hb_glyph_info_t;
use crate::memory::AllocError;

impl hb_buffer_t {
    /// Opens an output, with nothing in it, puts the cursor at the start and turns positions off.
    ///
    /// # Requires
    ///
    /// That no output is open.
    ///
    /// - `self.old.have_output ≡ false`
    ///
    /// # Proved
    ///
    /// ```text
    /// ensures is { self.new ≡ step.clear_output self.old }
    /// ensures keeps { KeepsClusters self.old self.new }
    /// ```
    #[inline]
    pub fn clear_output(&mut self) {
        debug_assert!(!self.have_output());
        debug_assert!(!self.sides.is_open());
        self.sides.open();
        self.have_positions = false;
        self.pos.clear();
    }

    /// Moves the glyph at the cursor to the end of the out side; with no output open only the cursor moves.
    ///
    /// # Requires
    ///
    /// A glyph at the cursor.
    ///
    /// - `0 < lookahead_len self.old`
    ///
    /// # Errors
    ///
    /// `Ok(false)` where the out side is full: then only `successful` changes. `Err(AllocError)` where
    /// memory ran out.
    ///
    /// # Proved
    ///
    /// ```text
    /// ensures meets { Meets (step.next_glyph self.old) self.old result self.new }
    /// ensures keeps { KeepsClusters self.old self.new }
    /// ensures in_place { self.old.have_separate_output ≡ false → result ≡ Ok true }
    /// ```
    #[inline]
    pub fn next_glyph(&mut self) -> Result<bool, AllocError> {
        debug_assert!(0 < self.lookahead_len());
        if self.sides.next_exceeds(1, self.max_len) {
            self.successful = false;
            return Ok(false);
        }
        self.sides.next_one()?;
        Ok(true)
    }

    /// Moves `n` glyphs at the cursor to the end of the out side, all or none; with no output open only the
    /// cursor moves.
    ///
    /// # Requires
    ///
    /// As many glyphs there.
    ///
    /// - `n ≤ lookahead_len self.old`
    ///
    /// # Errors
    ///
    /// `Ok(false)` where the out side would grow too long: then only `successful` changes.
    /// `Err(AllocError)` where memory ran out.
    ///
    /// # Proved
    ///
    /// ```text
    /// ensures meets { Meets (step.next_glyphs n self.old) self.old result self.new }
    /// ensures keeps { KeepsClusters self.old self.new }
    /// ensures in_place { self.old.have_separate_output ≡ false → result ≡ Ok true }
    /// ```
    #[inline(always)]
    pub fn next_glyphs(&mut self, n: usize) -> Result<bool, AllocError> {
        debug_assert!(n <= self.lookahead_len());
        if self.sides.next_exceeds(n, self.max_len) {
            self.successful = false;
            return Ok(false);
        }
        self.sides.next(n)?;
        Ok(true)
    }

    /// Drops the glyph at the cursor; with no output open the cursor moves over it.
    ///
    /// # Requires
    ///
    /// A glyph there.
    ///
    /// - `0 < lookahead_len self.old`
    ///
    /// # Proved
    ///
    /// ```text
    /// ensures is { self.new ≡ step.skip_glyph self.old }
    /// ensures keeps_order { KeepsClusterOrder self.old self.new }
    /// ensures keeps { HasTwin self.old → KeepsClusters self.old self.new }
    /// ```
    #[inline]
    pub fn skip_glyph(&mut self) {
        debug_assert!(0 < self.lookahead_len());
        self.sides.skip(1);
    }

    /// Moves the glyph at the cursor to the end of the out side under another id.
    ///
    /// # Requires
    ///
    /// An open output and a glyph at the cursor.
    ///
    /// - `opened: self.old.have_output ≡ true`
    /// - `glyph: 0 < lookahead_len self.old`
    ///
    /// # Errors
    ///
    /// `Ok(false)` where the out side is full: then only `successful` changes. `Err(AllocError)` where
    /// memory ran out.
    ///
    /// # Proved
    ///
    /// ```text
    /// ensures meets { Meets (step.replace_glyph glyph_index self.old) self.old result self.new }
    /// ensures keeps { KeepsClusters self.old self.new }
    /// ensures in_place { self.old.have_separate_output ≡ false → result ≡ Ok true }
    /// ```
    #[inline]
    pub fn replace_glyph(&mut self, glyph_index: u32) -> Result<bool, AllocError> {
        debug_assert!(self.have_output());
        debug_assert!(0 < self.lookahead_len());
        let glyph = self.sides.head();
        self.put(
            hb_glyph_info_t {
                glyph_id: glyph_index,
                ..glyph
            },
            1,
        )
    }

    /// Puts out a copy of the glyph at the cursor under another id, or of the last one that was put out
    /// where nothing is left to read, and nothing where both sides are empty.
    ///
    /// # Requires
    ///
    /// An open output.
    ///
    /// - `self.old.have_output ≡ true`
    ///
    /// # Errors
    ///
    /// `Ok(false)` where the out side is full: then only `successful` changes. `Err(AllocError)` where
    /// memory ran out.
    ///
    /// # Proved
    ///
    /// ```text
    /// ensures meets { Meets (step.output_glyph glyph_index self.old) self.old result self.new }
    /// ensures keeps { KeepsClusters self.old self.new }
    /// ```
    #[inline]
    pub fn output_glyph(&mut self, glyph_index: u32) -> Result<bool, AllocError> {
        debug_assert!(self.have_output());
        let glyph = if let Some(head) = self.sides.input().first() {
            *head
        } else if let Some(last) = self.sides.out().last() {
            *last
        } else {
            return Ok(true);
        };
        self.put(
            hb_glyph_info_t {
                glyph_id: glyph_index,
                ..glyph
            },
            0,
        )
    }

    /// Puts a glyph out.
    ///
    /// # Requires
    ///
    /// An open output.
    ///
    /// - `self.old.have_output ≡ true`
    ///
    /// # Errors
    ///
    /// `Ok(false)` where the out side is full: then only `successful` changes. `Err(AllocError)` where
    /// memory ran out.
    ///
    /// # Proved
    ///
    /// ```text
    /// ensures meets { Meets (step.output_info glyph_info self.old) self.old result self.new }
    /// ensures keeps { IsBeside glyph_info.cluster self.old → KeepsClusters self.old self.new }
    /// ```
    #[inline]
    pub fn output_info(&mut self, glyph_info: hb_glyph_info_t) -> Result<bool, AllocError> {
        debug_assert!(self.have_output());
        self.put(glyph_info, 0)
    }

    /// Puts out a copy of the glyph at the cursor.
    ///
    /// # Requires
    ///
    /// An open output and a glyph there.
    ///
    /// - `opened: self.old.have_output ≡ true`
    /// - `glyph: 0 < lookahead_len self.old`
    ///
    /// # Errors
    ///
    /// `Ok(false)` where the out side is full: then only `successful` changes. `Err(AllocError)` where
    /// memory ran out.
    ///
    /// # Proved
    ///
    /// ```text
    /// ensures meets { Meets (step.copy_glyph self.old) self.old result self.new }
    /// ensures keeps { KeepsClusters self.old self.new }
    /// ```
    #[inline]
    pub fn copy_glyph(&mut self) -> Result<bool, AllocError> {
        debug_assert!(self.have_output());
        debug_assert!(0 < self.lookahead_len());
        let glyph = self.sides.head();
        self.put(glyph, 0)
    }

    /// Closes the output: the list is what was put out, and then what was left to read, and the cursor is
    /// at its start.
    ///
    /// # Requires
    ///
    /// An open output.
    ///
    /// - `self.old.have_output ≡ true`
    ///
    /// # Errors
    ///
    /// `Ok(false)` after an earlier refusal, with nothing changed, and where both sides together are too
    /// long: then only `successful` changes. `Err(AllocError)` where memory ran out.
    ///
    /// # Proved
    ///
    /// ```text
    /// ensures meets { Meets (step.sync self.old) self.old result self.new }
    /// ensures keeps { KeepsClusters self.old self.new }
    /// ensures in_place { self.old.have_separate_output ≡ false → result ≡ Ok self.old.successful }
    /// ```
    #[inline(always)]
    pub fn sync(&mut self) -> Result<bool, AllocError> {
        debug_assert!(self.have_output());
        if !self.successful {
            return Ok(false);
        }
        if self.sides.has_grown() {
            return self.sync_longer();
        }
        // The list is no longer than it was, and so within the limit and the room of the positions.
        self.sides.close()?;
        Ok(true)
    }

    /// Closes the output where the list becomes longer.
    ///
    /// # Requires
    ///
    /// - `opened: self.old.have_output ≡ true`
    /// - `good: self.old.successful ≡ true`
    /// - `longer: self.old.idx < length self.old.out`
    #[inline(never)]
    fn sync_longer(&mut self) -> Result<bool, AllocError> {
        debug_assert!(self.have_output());
        debug_assert!(self.idx() < self.out_len());
        let (out_len, left) = (self.sides.out_len(), self.sides.lookahead_len());
        if left > self.max_len - out_len {
            self.successful = false;
            return Ok(false);
        }
        // `clear_positions` is to find room for a position at each glyph.
        self.pos.reserve(out_len + left)?;
        self.sides.close()?;
        Ok(true)
    }

    /// Puts a glyph out, and reads some.
    ///
    /// # Requires
    ///
    /// - `opened: self.old.have_output ≡ true`
    /// - `within: read ≤ length self.old.input`
    #[inline(always)]
    fn put(&mut self, glyph: hb_glyph_info_t, read: usize) -> Result<bool, AllocError> {
        debug_assert!(self.have_output());
        debug_assert!(read <= self.info().len());
        if self.sides.out_len() >= self.max_len {
            self.successful = false;
            return Ok(false);
        }
        self.sides.put(glyph, read)?;
        Ok(true)
    }
}
