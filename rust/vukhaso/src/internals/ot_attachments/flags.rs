// Written by tools/plain_rust from crates/ot_attachments. Do not edit.

//! Glyph flags of a range of a buffer with no output open, whatever the range.

use crate::buffer::{HB_BUFFER_SCRATCH_FLAG_HAS_GPOS_ATTACHMENT, hb_buffer_t};

/// Marks glyphs from a place up to another as unsafe to break and to concatenate (HarfBuzz,
/// `unsafe_to_break`).
///
/// # Requires
///
/// - `closed: buffer.old.have_output ≡ false`
/// - `placed: IsSome buffer.old.positions`
///
/// # Proved
///
/// ```text
/// ensures is { buffer.new ≡ break_marked from to buffer.old }
/// ensures closed { buffer.new.have_output ≡ false }
/// ensures placed { IsSome buffer.new.positions }
/// ensures rest { untouched buffer.new ≡ untouched buffer.old }
/// ensures flags { KeepsBits buffer.old.input buffer.new.input }
/// ```
#[inline]
pub fn mark_break(buffer: &mut hb_buffer_t, from: usize, to: usize) {
    debug_assert!(!buffer.have_output());
    debug_assert!(buffer.have_positions());
    let len = closed_len(buffer);
    if from <= to && from <= len {
        buffer.unsafe_to_break(Some(from), Some(to));
    }
}

/// Marks glyphs from a place up to another as unsafe to concatenate, if the buffer's flags ask for that
/// (HarfBuzz, `unsafe_to_concat`).
///
/// # Requires
///
/// - `closed: buffer.old.have_output ≡ false`
/// - `placed: IsSome buffer.old.positions`
///
/// # Proved
///
/// ```text
/// ensures is { buffer.new ≡ concat_marked from to buffer.old }
/// ensures closed { buffer.new.have_output ≡ false }
/// ensures placed { IsSome buffer.new.positions }
/// ensures rest { untouched buffer.new ≡ untouched buffer.old }
/// ensures flags { KeepsBits buffer.old.input buffer.new.input }
/// ```
#[inline]
pub fn mark_concat(buffer: &mut hb_buffer_t, from: usize, to: usize) {
    debug_assert!(!buffer.have_output());
    debug_assert!(buffer.have_positions());
    let len = closed_len(buffer);
    if from < to && from <= len {
        buffer.unsafe_to_concat(Some(from), Some(to));
    }
}

/// How many glyphs there are, of which none is put out while no output is open.
///
/// # Requires
///
/// - `buffer.now.have_output ≡ false`
#[inline(always)]
fn closed_len(buffer: &hb_buffer_t) -> usize {
    debug_assert!(!buffer.have_output());
    debug_assert!(buffer.out_len() == 0);
    buffer.len()
}

/// Says that there are glyphs that are attached to others.
///
/// # Requires
///
/// - `closed: buffer.old.have_output ≡ false`
/// - `placed: IsSome buffer.old.positions`
///
/// # Proved
///
/// ```text
/// ensures is { buffer.new ≡ attachments_marked buffer.old }
/// ensures closed { buffer.new.have_output ≡ false }
/// ensures placed { IsSome buffer.new.positions }
/// ensures rest { untouched buffer.new ≡ untouched buffer.old }
/// ensures flags { KeepsBits buffer.old.input buffer.new.input }
/// ```
#[inline]
pub fn mark_attached(buffer: &mut hb_buffer_t) {
    debug_assert!(!buffer.have_output());
    debug_assert!(buffer.have_positions());
    buffer.scratch_flags |= HB_BUFFER_SCRATCH_FLAG_HAS_GPOS_ATTACHMENT;
}
