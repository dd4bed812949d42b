// Written by tools/plain_rust from crates/buffer_tests. Do not edit.

//! What is known of every buffer, from its accessors alone.

use vukhaso::internals::buffer::{UnicodeBuffer, hb_buffer_t};

/// With no output open nothing was put out.
///
/// # Requires
///
/// - `buffer.now.have_output ≡ false`
///
/// # Proved
///
/// ```text
/// ensures { result ≡ 0 }
/// ```
#[inline]
pub fn out_len_while_closed(buffer: &hb_buffer_t) -> usize {
    debug_assert!(!buffer.have_output());
    buffer.out_len()
}

/// While an output is open there are no positions.
///
/// # Requires
///
/// - `buffer.now.have_output ≡ true`
///
/// # Proved
///
/// ```text
/// ensures { result ≡ false }
/// ```
#[inline]
pub fn have_positions_while_open(buffer: &hb_buffer_t) -> bool {
    debug_assert!(buffer.have_output());
    buffer.have_positions()
}

/// There are at most ten characters on both sides of the text.
///
/// # Proved
///
/// ```text
/// ensures { result ≤ 10 }
/// ```
#[inline]
pub fn context_len(buffer: &hb_buffer_t) -> usize {
    buffer.context(0).len() + buffer.context(1).len()
}

/// How many glyphs a new buffer may hold.
///
/// # Proved
///
/// ```text
/// ensures { result ≡ 0x3FFF_FFFF }
/// ```
#[inline]
pub fn default_glyph_limit() -> usize {
    hb_buffer_t::new().max_len()
}

/// A new text may hold as many, and its shaper may make so many operations.
///
/// # Proved
///
/// ```text
/// ensures { result ≡ pos 0x1FFF_FFFF }
/// ```
#[inline]
pub fn default_operation_limit() -> i32 {
    UnicodeBuffer::new().into_buffer().max_ops
}
