// Written by tools/plain_rust from crates/shaping_uses. Do not edit.

//! Memory that is taken once: after one `ensure` a pass that puts out more than it reads asks for none, so it never runs
//! out of it.

use vukhaso::internals::buffer::hb_buffer_t;
use vukhaso::memory::AllocError;

/// Puts a copy of each glyph under the id of a mark before it, so that the list becomes twice as long.
/// Memory is asked for once, before the pass: where there is none, or where the list would be too long,
/// nothing changes.
///
/// # Requires
///
/// That no output is open and no refusal stands.
///
/// - `closed: buffer.old.have_output ≡ false`
/// - `successful: buffer.old.successful ≡ true`
///
/// # Errors
///
/// `Ok(false)` where it would be longer than `max_len`. `Err(AllocError)` where memory ran out.
///
/// # Proved
///
/// ```text
/// ensures marks { result ≡ Ok true
///     → buffer.new.input ≡ with_marks mark buffer.old.input }
/// ensures twice { result ≡ Ok true → length buffer.new.input ≡ 2 * length buffer.old.input }
/// ensures long { result ≡ Ok false → buffer.old.max_len < 2 * length buffer.old.input }
/// ensures refused { result ≡ Ok false → buffer.new ≡ buffer.old }
/// ensures wants { OnErr result (buffer.old.room < 2 * length buffer.old.input) }
/// ensures same { OnErr result (buffer.new ≡ buffer.old) }
/// ```
#[inline]
pub fn put_marks(buffer: &mut hb_buffer_t, mark: u32) -> Result<bool, AllocError> {
    debug_assert!(!buffer.have_output());
    let len = buffer.len();
    if len > buffer.max_len() - len {
        return Ok(false);
    }
    buffer.ensure(len + len)?;
    put_marks_within_room(buffer, mark)
}

/// The same where there is room for it: it asks for no memory.
///
/// # Requires
///
/// That twice as many glyphs fit the room, and `max_len`.
///
/// - `closed: buffer.old.have_output ≡ false`
/// - `successful: buffer.old.successful ≡ true`
/// - `room: 2 * length buffer.old.input ≤ buffer.old.room`
/// - `fits: 2 * length buffer.old.input ≤ buffer.old.max_len`
///
/// # Errors
///
/// `Err(AllocError)` where memory ran out.
///
/// # Proved
///
/// ```text
/// ensures done { result ≡ Ok true }
/// ensures marks { buffer.new.input ≡ with_marks mark buffer.old.input }
/// ensures twice { length buffer.new.input ≡ 2 * length buffer.old.input }
/// ```
#[inline]
pub fn put_marks_within_room(buffer: &mut hb_buffer_t, mark: u32) -> Result<bool, AllocError> {
    debug_assert!(!buffer.have_output());
    buffer.clear_output();
    while buffer.lookahead_len() > 0 {
        buffer.output_glyph(mark)?;
        buffer.next_glyph()?;
    }
    buffer.sync()
}
