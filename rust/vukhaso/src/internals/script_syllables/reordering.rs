// Written by tools/plain_rust from crates/script_syllables. Do not edit.

//! The order of the glyphs of syllables: one walk over them, by each shaper's rules for a syllable.

use crate::buffer::hb_buffer_t;
use crate::memory::AllocError;
use crate::script_syllables::dotted_circle::{CircleKind, insert_dotted_circles};
use crate::script_syllables::font::FontForms;
use core::ops::Range;

/// A shaper's rules for the order of a syllable.
pub trait SyllableOrder {
    /// Puts the glyphs of a syllable in order.
    ///
    /// # Requires
    ///
    /// - `buffer.old.have_output ≡ false`
    ///
    /// # Proved
    ///
    /// ```text
    /// ensures { NumbersStay buffer.old buffer.new }
    /// ```
    fn reorder_syllable(&self, buffer: &mut hb_buffer_t, range: &Range<usize>);
}

/// Puts a dotted circle into each broken syllable, and the glyphs of each syllable in order.
///
/// # Requires
///
/// - `buffer.old.have_output ≡ false`
///
/// # Errors
///
/// `Ok(false)` where the text would become too long. `Err(AllocError)` where memory ran out.
///
/// # Proved
///
/// ```text
/// ensures { Reorders result buffer.old buffer.new }
/// ```
#[inline]
pub fn reorder<F: FontForms, O: SyllableOrder>(
    buffer: &mut hb_buffer_t,
    font: &F,
    circle: CircleKind,
    order: &O,
) -> Result<bool, AllocError> {
    debug_assert!(!buffer.have_output());
    if !insert_dotted_circles(buffer, font, circle)? {
        return Ok(false);
    }
    reorder_syllables(buffer, order);
    Ok(true)
}

/// Puts the glyphs of each syllable in order.
///
/// # Requires
///
/// - `buffer.old.have_output ≡ false`
///
/// # Proved
///
/// ```text
/// ensures { NumbersStay buffer.old buffer.new }
/// ```
#[inline]
pub fn reorder_syllables<O: SyllableOrder>(buffer: &mut hb_buffer_t, order: &O) {
    debug_assert!(!buffer.have_output());
    let mut start = 0;
    for _turn in 0..buffer.len() {
        if start >= buffer.len() {
            break;
        }
        let end = buffer.next_syllable(start);
        order.reorder_syllable(buffer, &(start..end));
        start = end;
    }
}
