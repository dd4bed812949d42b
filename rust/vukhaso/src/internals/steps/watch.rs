// Written by tools/plain_rust from crates/shaping_steps. Do not edit.

//! What is told while a text is shaped, step by step.

use crate::buffer::hb_buffer_t;
use crate::memory::AllocError;

/// A step of shaping.
#[derive(Clone, Copy, PartialEq, Eq, Debug)]
pub enum Step {
    /// The text was put in order, and characters were composed or taken apart: the items are characters yet.
    Characters,
    /// Each character has its glyph.
    Glyphs,
    /// A lookup of `GSUB` was applied, which has this index.
    Substituted(u16),
    /// The glyphs have the advances and the origins of the font.
    Advances,
    /// A lookup of `GPOS` was applied, which has this index.
    Positioned(u16),
    /// Pairs were kerned by the table `kern`.
    Kerned,
    /// The text is shaped.
    Shaped,
}

/// Who is told of each step of shaping.
pub trait Watch {
    /// A step was made, and the buffer is what it left.
    ///
    /// # Requires
    ///
    /// - `buffer.now.have_output ≡ false`
    ///
    /// # Errors
    ///
    /// `Err(AllocError)` where memory ran out.
    ///
    /// # Proved
    ///
    /// That it returns.
    fn step(&mut self, step: Step, buffer: &hb_buffer_t) -> Result<(), AllocError>;
}

/// Nobody is told.
#[derive(Clone, Copy, Debug)]
pub struct Unwatched;

impl Watch for Unwatched {
    fn step(&mut self, _step: Step, _buffer: &hb_buffer_t) -> Result<(), AllocError> {
        Ok(())
    }
}
