// Written by tools/plain_rust from crates/shape_kept. Do not edit.

//! What is kept of a line for the next one.

use crate::buffer::UnicodeBuffer;
use crate::lines::text::{emptied, empty_text};
use crate::options::options::LineOptions;

/// What is kept of a line for the next one of the same font.
#[derive(Debug)]
pub struct KeptLine {
    /// Its buffer, emptied.
    pub text: Option<UnicodeBuffer>,
    /// Whether the shaping of a line was given up, and nothing was said of it yet.
    pub has_given_up: bool,
}

impl KeptLine {
    /// Nothing is kept.
    ///
    /// # Proved
    ///
    /// ```text
    /// ensures text { result.text ≡ None }
    /// ensures has_given_up { result.has_given_up ≡ false }
    /// ```
    #[inline]
    pub fn new() -> Self {
        KeptLine {
            text: None,
            has_given_up: false,
        }
    }

    /// An empty text for the next line, in the buffer that is kept, if one is. In it characters that are
    /// invisible by default are to have the glyph of the options.
    ///
    /// # Proved
    ///
    /// ```text
    /// ensures { result.invisible ≡ options.now.invisible_glyph }
    /// ```
    #[inline]
    pub fn take_text(&mut self, options: &LineOptions<'_>) -> UnicodeBuffer {
        match self.text.take() {
            Some(text) => emptied(text, options),
            None => empty_text(options),
        }
    }
}
