// Written by tools/plain_rust from crates/shaping_uses. Do not edit.

//! Calls while the output is in place, in the storage of the input. They take no memory, so they never run out of it.
//! It is so of single calls, and of a list of them.

use vukhaso::internals::buffer::hb_buffer_t;
use vukhaso::internals::runs::{Answer, Call, replay};
use vukhaso::memory::AllocError;

/// Puts the glyph at the cursor out.
///
/// # Requires
///
/// - `glyph: 0 < lookahead_len buffer.old`
/// - `in_place: buffer.old.have_separate_output ≡ false`
///
/// # Errors
///
/// `Err(AllocError)` where memory ran out.
///
/// # Proved
///
/// ```text
/// ensures done { result ≡ Ok true }
/// ensures meets { Meets (step.next_glyph buffer.old) buffer.old result buffer.new }
/// ```
#[inline]
pub fn next_in_place(buffer: &mut hb_buffer_t) -> Result<bool, AllocError> {
    debug_assert!(0 < buffer.lookahead_len());
    debug_assert!(!buffer.have_separate_output());
    buffer.next_glyph()
}

/// Puts `n` glyphs out.
///
/// # Requires
///
/// - `glyphs: n ≤ lookahead_len buffer.old`
/// - `in_place: buffer.old.have_separate_output ≡ false`
///
/// # Errors
///
/// `Err(AllocError)` where memory ran out.
///
/// # Proved
///
/// ```text
/// ensures done { result ≡ Ok true }
/// ensures meets { Meets (step.next_glyphs n buffer.old) buffer.old result buffer.new }
/// ```
#[inline]
pub fn next_glyphs_in_place(buffer: &mut hb_buffer_t, n: usize) -> Result<bool, AllocError> {
    debug_assert!(n <= buffer.lookahead_len());
    debug_assert!(!buffer.have_separate_output());
    buffer.next_glyphs(n)
}

/// Puts the glyph at the cursor out under another id.
///
/// # Requires
///
/// - `opened: buffer.old.have_output ≡ true`
/// - `glyph: 0 < lookahead_len buffer.old`
/// - `in_place: buffer.old.have_separate_output ≡ false`
///
/// # Errors
///
/// `Err(AllocError)` where memory ran out.
///
/// # Proved
///
/// ```text
/// ensures done { result ≡ Ok true }
/// ensures meets { Meets (step.replace_glyph id buffer.old) buffer.old result buffer.new }
/// ```
#[inline]
pub fn replace_in_place(buffer: &mut hb_buffer_t, id: u32) -> Result<bool, AllocError> {
    debug_assert!(buffer.have_output());
    debug_assert!(0 < buffer.lookahead_len());
    debug_assert!(!buffer.have_separate_output());
    buffer.replace_glyph(id)
}

/// Moves the cursor to a place of both sides, where no refusal stands.
///
/// # Requires
///
/// - `within: i ≤ last_place buffer.old`
/// - `successful: buffer.old.successful ≡ true`
/// - `in_place: buffer.old.have_separate_output ≡ false`
///
/// # Errors
///
/// `Err(AllocError)` where memory ran out.
///
/// # Proved
///
/// ```text
/// ensures done { result ≡ Ok true }
/// ensures meets { Meets (step.move_to i buffer.old) buffer.old result buffer.new }
/// ```
#[inline]
pub fn move_in_place(buffer: &mut hb_buffer_t, i: usize) -> Result<bool, AllocError> {
    debug_assert!(i <= buffer.backtrack_len() + buffer.lookahead_len());
    debug_assert!(!buffer.have_separate_output());
    buffer.move_to(i)
}

/// Closes the output, where no refusal stands.
///
/// # Requires
///
/// - `opened: buffer.old.have_output ≡ true`
/// - `successful: buffer.old.successful ≡ true`
/// - `in_place: buffer.old.have_separate_output ≡ false`
///
/// # Errors
///
/// `Err(AllocError)` where memory ran out.
///
/// # Proved
///
/// ```text
/// ensures done { result ≡ Ok true }
/// ensures meets { Meets (step.sync buffer.old) buffer.old result buffer.new }
/// ```
#[inline]
pub fn sync_in_place(buffer: &mut hb_buffer_t) -> Result<bool, AllocError> {
    debug_assert!(buffer.have_output());
    debug_assert!(!buffer.have_separate_output());
    buffer.sync()
}

/// Drops the first glyph, puts three out, takes them back, and closes, in the storage of the input.
/// With memory gone after the text was pushed, these calls are done all the same: none puts out more
/// glyphs than it reads, so `replay` stops at none of them. `None` where there are fewer than four
/// glyphs: then nothing changes.
///
/// # Requires
///
/// - `closed: buffer.old.have_output ≡ false`
/// - `successful: buffer.old.successful ≡ true`
///
/// # Proved
///
/// ```text
/// ensures few { IfNone result ((len buffer.old < 4) × (buffer.new ≡ buffer.old)) }
/// ensures answers { IfSome result (λ answers. answers ≡ replicate 7 answer.Done) }
/// ensures left { IsSome result → buffer.new ≡ record buffer.old {
///       have_separate_output = false;
///       out = [];
///       input = drop 1 buffer.old.input;
///       idx = 0;
///       positions = None;
///     } }
/// ```
#[inline]
pub fn rewind_in_place(buffer: &mut hb_buffer_t) -> Option<[Answer; 7]> {
    debug_assert!(!buffer.have_output());
    if buffer.len() < 4 {
        return None;
    }
    let calls = [
        Call::ClearOutput,
        Call::SkipGlyph,
        Call::NextGlyph,
        Call::NextGlyph,
        Call::NextGlyph,
        Call::MoveTo(0),
        Call::Sync,
    ];
    let mut answers = [Answer::Outside; 7];
    match replay(buffer, &calls, &mut answers) {
        Ok(()) => Some(answers),
        Err(_) => unreachable!(),
    }
}
