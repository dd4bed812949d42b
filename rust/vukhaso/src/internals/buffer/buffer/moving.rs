// Written by tools/plain_rust from crates/shaping_buffer. Do not edit.

//! Moves of the cursor over both sides, as HarfBuzz's `hb_buffer_t` makes them: glyphs are put out as they are, or
//! taken back to be read again.

use super::hb_buffer_t;
use crate::memory::AllocError;

impl hb_buffer_t {
    /// Moves the cursor to a place of both sides as one list: the glyphs before it are then put out, and
    /// the others are left to read. With no output open only the cursor moves.
    ///
    /// # Requires
    ///
    /// `i <= out_len + lookahead_len`, or with no output `i <= len`.
    ///
    /// - `i ≤ step.last_place self.old`
    ///
    /// # Errors
    ///
    /// `Ok(false)` after an earlier refusal, with nothing changed, and where the side that becomes longer
    /// would be too long: then only `successful` changes. `Err(AllocError)` where memory ran out: then
    /// nothing changed.
    ///
    /// # Proved
    ///
    /// ```text
    /// ensures meets { Meets (step.move_to i self.old) self.old result self.new }
    /// ensures keeps { KeepsClusters self.old self.new }
    /// ensures in_place { self.old.have_separate_output ≡ false
    ///     → result ≡ Ok (self.old.successful || not self.old.have_output) }
    /// ```
    #[inline]
    pub fn move_to(&mut self, i: usize) -> Result<bool, AllocError> {
        debug_assert!(i <= self.backtrack_len() + self.lookahead_len());
        if !self.sides.is_open() {
            self.sides.go_to(i);
            return Ok(true);
        }
        if !self.successful {
            return Ok(false);
        }
        let out_len = self.sides.out_len();
        if out_len <= i {
            return self.next_glyphs(i - out_len);
        }
        let count = out_len - i;
        let left = self.sides.lookahead_len();
        if left > self.max_len - count {
            self.successful = false;
            return Ok(false);
        }
        if count > self.sides.idx() {
            self.pos.reserve(count + left)?;
        }
        self.sides.rewind(i)?;
        Ok(true)
    }
}
