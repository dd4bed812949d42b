// Written by tools/plain_rust from crates/shaping_buffer. Do not edit.

//! Both sides as one list: what was put out, and then what is left to read.

use super::hb_buffer_t;

impl hb_buffer_t {
    /// Where glyph `k` of the input stands in the one list.
    ///
    /// # Requires
    ///
    /// - `from_start: step.input_start self.now ≤ k`
    /// - `within: k ≤ len self.now`
    pub(super) fn both_place(&self, k: usize) -> usize {
        debug_assert!(k <= self.len());
        self.sides.place(k)
    }
}
