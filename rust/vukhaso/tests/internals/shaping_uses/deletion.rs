// Written by tools/plain_rust from crates/shaping_uses. Do not edit.

//! Every second glyph is deleted.

use vukhaso::internals::buffer::hb_buffer_t;
use vukhaso::memory::AllocError;

/// Deletes every second glyph. The pass stays in place, so it asks for no memory and is always done.
///
/// # Requires
///
/// That no output is open and no refusal stands.
///
/// - `closed: buffer.old.have_output ≡ false`
/// - `successful: buffer.old.successful ≡ true`
///
/// # Errors
///
/// `Err(AllocError)` where memory ran out.
///
/// # Proved
///
/// ```text
/// ensures done { result ≡ Ok true }
/// ensures closed { buffer.new.have_output ≡ false }
/// ensures at_least_half { length buffer.old.input ≤ 2 * length buffer.new.input }
/// ensures at_most_half { 2 * length buffer.new.input ≤ length buffer.old.input + 1 }
/// ```
#[inline]
pub fn delete_every_second(buffer: &mut hb_buffer_t) -> Result<bool, AllocError> {
    debug_assert!(!buffer.have_output());
    buffer.clear_output();
    while buffer.lookahead_len() >= 2 {
        buffer.next_glyph()?;
        buffer.delete_glyph();
    }
    buffer.sync()
}
