// Written by tools/plain_rust from crates/shaping_buffer. Do not edit.

//! Texts and characters that are put at the end of the list, as by HarfBuzz's `hb_buffer_add_utf8` and
//! `hb_buffer_add`.

use super::hb_buffer_t;
use crate::glyph::hb_glyph_info_t;
use crate::memory::AllocError;

impl hb_buffer_t {
    /// Pushes the characters of a text, all or none, each with the place of its first byte as cluster.
    ///
    /// # Requires
    ///
    /// - `closed: self.old.have_output ≡ false`
    /// - `plain: self.old.positions ≡ None`
    ///
    /// # Errors
    ///
    /// `Ok(false)` where the list would grow too long: then only `successful` changes. `Err(AllocError)`
    /// where memory ran out, which an empty text never asks for: then nothing changed.
    pub(crate) fn push_str(&mut self, text: &str) -> Result<bool, AllocError> {
        debug_assert!(!self.have_output());
        debug_assert!(!self.have_positions());
        let more = count_characters(text);
        if more > self.max_len - self.sides.len() {
            self.successful = false;
            return Ok(false);
        }
        // The glyphs come first: where the allocator gives memory back from its end, theirs is what it keeps.
        self.sides.reserve_more(more)?;
        self.pos.reserve(self.sides.len() + more)?;
        self.sides.append(text, more)?;
        Ok(true)
    }

    /// Makes room for `size` glyphs on each side, and as many positions: no call whose sides stay within
    /// them asks for memory then.
    ///
    /// # Errors
    ///
    /// `Ok(false)` where these are more than `max_len`: then only `successful` changes. `Err(AllocError)`
    /// where memory ran out: then nothing changed.
    ///
    /// # Proved
    ///
    /// ```text
    /// ensures meets { RoomMeets size (step.ensure size self.old) self.old result self.new }
    /// ensures keeps { KeepsClusters self.old self.new }
    /// ```
    #[inline]
    pub fn ensure(&mut self, size: usize) -> Result<bool, AllocError> {
        if size > self.max_len {
            self.successful = false;
            return Ok(false);
        }
        if size > self.sides.room() {
            self.pos.reserve(size.saturating_sub(self.pos.len()))?;
            self.sides.reserve(size)?;
        }
        Ok(true)
    }

    /// Adds one character with a cluster, and forgets the text after it.
    ///
    /// # Requires
    ///
    /// - `closed: self.old.have_output ≡ false`
    /// - `plain: self.old.positions ≡ None`
    ///
    /// # Errors
    ///
    /// `Ok(false)` and `Err(AllocError)` come and leave the buffer as those of `push_str`.
    pub(crate) fn add(&mut self, codepoint: char, cluster: u32) -> Result<bool, AllocError> {
        debug_assert!(!self.have_output());
        debug_assert!(!self.have_positions());
        if self.sides.len() >= self.max_len {
            self.successful = false;
            return Ok(false);
        }
        self.pos.reserve(self.sides.len() + 1)?;
        self.sides.push(hb_glyph_info_t {
            glyph_id: codepoint as u32,
            mask: 0,
            cluster,
            var1: 0,
            var2: 0,
        })?;
        self.post_context.clear();
        Ok(true)
    }
}

fn count_characters(text: &str) -> usize {
    text.chars().count()
}
