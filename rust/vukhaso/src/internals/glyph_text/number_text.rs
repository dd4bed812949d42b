// Written by tools/plain_rust from crates/glyph_text. Do not edit.

//! Short texts of numbers, written from their end, as their digits come.

use crate::itoa::write_digits;
use core::str::from_utf8;

/// How many bytes such a text has at most: each of two numbers has at most ten digits and a sign before it.
const LIMIT: usize = 22;

/// A text of numbers and of ASCII signs before them. It goes into a longer text by one copy.
#[derive(Debug)]
pub(crate) struct NumberText {
    bytes: [u8; LIMIT],
    start: usize,
}

impl NumberText {
    #[inline(always)]
    pub(crate) fn new() -> NumberText {
        NumberText {
            bytes: [0; LIMIT],
            start: LIMIT,
        }
    }

    /// Puts a sign before the text.
    ///
    /// # Requires
    ///
    /// - `room: length self.old < LIMIT`
    /// - `ascii: sign < 128`
    #[inline(always)]
    pub(crate) fn put_sign(&mut self, sign: u8) {
        debug_assert!(sign < 128);
        self.start -= 1;
        self.bytes[self.start] = sign;
    }

    /// Puts a number before the text.
    ///
    /// # Requires
    ///
    /// - `room: length self.old + 10 ≤ LIMIT`
    #[inline(always)]
    pub(crate) fn put_number(&mut self, number: u32) {
        self.start = write_digits(u64::from(number), &mut self.bytes, self.start);
    }

    #[inline(always)]
    pub(crate) fn as_str(&self) -> &str {
        from_utf8(&self.bytes[self.start..]).unwrap_or_default()
    }
}
