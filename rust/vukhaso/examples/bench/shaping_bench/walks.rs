// Written by tools/plain_rust from crates/shaping_bench. Do not edit.

//! Walks of the cursor over a list, each with an output open from its start to its end.
//!
//! Each answers `Ok(false)` where a call was refused. They require that no output is open. Each stands out of line, so
//! that its time does not depend on what stands beside it.

use vukhaso::internals::buffer::hb_buffer_t;
use vukhaso::memory::AllocError;

/// The glyphs that are put out between two rewinds, and those that a rewind takes back.
const PUT_OUT: usize = 8;

const TAKEN_BACK: usize = 4;

/// How often all glyphs are put out at once: once takes less time than the clock takes to be read.
pub const BULK_PASSES: usize = 100;

/// Puts out one glyph after another.
///
/// # Requires
///
/// - `buffer.old.have_output ≡ false`
///
/// # Errors
///
/// `Err(AllocError)` where memory ran out.
///
/// # Proved
///
/// That it returns.
#[inline(never)]
pub fn next_glyph_sync(buffer: &mut hb_buffer_t) -> Result<bool, AllocError> {
    debug_assert!(!buffer.have_output());
    buffer.clear_output();
    put_rest_out(buffer)
}

/// Puts all glyphs out at once, again and again.
///
/// # Requires
///
/// - `buffer.old.have_output ≡ false`
///
/// # Errors
///
/// `Err(AllocError)` where memory ran out.
///
/// # Proved
///
/// That it returns.
#[inline(never)]
pub fn next_glyphs_sync(buffer: &mut hb_buffer_t) -> Result<bool, AllocError> {
    debug_assert!(!buffer.have_output());
    for _ in 0..BULK_PASSES {
        if buffer.have_output() || !put_all_out(buffer)? {
            return Ok(false);
        }
    }
    Ok(true)
}

// Not inlined, so that no pass is left out for the next one, which does the same.
/// # Requires
///
/// - `buffer.old.have_output ≡ false`
#[inline(never)]
fn put_all_out(buffer: &mut hb_buffer_t) -> Result<bool, AllocError> {
    debug_assert!(!buffer.have_output());
    buffer.clear_output();
    if !buffer.next_glyphs(buffer.lookahead_len())? {
        return Ok(false);
    }
    buffer.sync()
}

/// Makes one glyph of each two.
///
/// # Requires
///
/// - `buffer.old.have_output ≡ false`
///
/// # Errors
///
/// `Err(AllocError)` where memory ran out.
///
/// # Proved
///
/// That it returns.
#[inline(never)]
pub fn ligatures(buffer: &mut hb_buffer_t) -> Result<bool, AllocError> {
    debug_assert!(!buffer.have_output());
    buffer.clear_output();
    for _ in 0..buffer.len() {
        if buffer.lookahead_len() < 2 {
            break;
        }
        if !buffer.replace_glyphs(2, 1, &[7])? {
            return Ok(false);
        }
    }
    put_rest_out(buffer)
}

/// Makes two glyphs of each.
///
/// # Requires
///
/// - `buffer.old.have_output ≡ false`
///
/// # Errors
///
/// `Err(AllocError)` where memory ran out.
///
/// # Proved
///
/// That it returns.
#[inline(never)]
pub fn decompositions(buffer: &mut hb_buffer_t) -> Result<bool, AllocError> {
    debug_assert!(!buffer.have_output());
    buffer.clear_output();
    for _ in 0..buffer.len() {
        if buffer.lookahead_len() == 0 {
            break;
        }
        if !buffer.replace_glyphs(1, 2, &[7, 8])? {
            return Ok(false);
        }
    }
    buffer.sync()
}

/// Goes eight glyphs forward and four back.
///
/// # Requires
///
/// - `buffer.old.have_output ≡ false`
///
/// # Errors
///
/// `Err(AllocError)` where memory ran out.
///
/// # Proved
///
/// That it returns.
#[inline(never)]
pub fn rewinds(buffer: &mut hb_buffer_t) -> Result<bool, AllocError> {
    debug_assert!(!buffer.have_output());
    buffer.clear_output();
    rewind_to_the_end(buffer)
}

/// The same with the out side eight glyphs behind.
///
/// # Requires
///
/// - `buffer.old.have_output ≡ false`
///
/// # Errors
///
/// `Err(AllocError)` where memory ran out.
///
/// # Proved
///
/// That it returns.
#[inline(never)]
pub fn rewinds_behind(buffer: &mut hb_buffer_t) -> Result<bool, AllocError> {
    debug_assert!(!buffer.have_output());
    buffer.clear_output();
    for _ in 0..PUT_OUT {
        if buffer.lookahead_len() > 0 {
            buffer.skip_glyph();
        }
    }
    rewind_to_the_end(buffer)
}

/// The same with the out side one glyph ahead.
///
/// # Requires
///
/// - `buffer.old.have_output ≡ false`
///
/// # Errors
///
/// `Err(AllocError)` where memory ran out.
///
/// # Proved
///
/// That it returns.
#[inline(never)]
pub fn rewinds_separate(buffer: &mut hb_buffer_t) -> Result<bool, AllocError> {
    debug_assert!(!buffer.have_output());
    buffer.clear_output();
    if buffer.lookahead_len() == 0 || !buffer.copy_glyph()? {
        return Ok(false);
    }
    rewind_to_the_end(buffer)
}

/// Puts out one glyph ahead of the cursor, and then for each glyph of the list a new one, which it
/// takes back.
///
/// # Requires
///
/// - `buffer.old.have_output ≡ false`
///
/// # Errors
///
/// `Err(AllocError)` where memory ran out.
///
/// # Proved
///
/// That it returns.
#[inline(never)]
pub fn rewinds_past_cursor(buffer: &mut hb_buffer_t) -> Result<bool, AllocError> {
    debug_assert!(!buffer.have_output());
    let len = buffer.len();
    buffer.clear_output();
    if buffer.lookahead_len() == 0 || !buffer.copy_glyph()? {
        return Ok(false);
    }
    for _ in 0..len {
        let place = buffer.out_len();
        if !buffer.output_glyph(7)? || !buffer.move_to(place)? {
            return Ok(false);
        }
    }
    buffer.sync()
}

/// Deletes each third glyph.
///
/// # Requires
///
/// - `buffer.old.have_output ≡ false`
///
/// # Errors
///
/// `Err(AllocError)` where memory ran out.
///
/// # Proved
///
/// That it returns.
#[inline(never)]
pub fn delete_third(buffer: &mut hb_buffer_t) -> Result<bool, AllocError> {
    debug_assert!(!buffer.have_output());
    buffer.clear_output();
    let mut turn: u8 = 0;
    for _ in 0..buffer.len() {
        if buffer.lookahead_len() == 0 {
            break;
        }
        turn += 1;
        if turn == 3 {
            turn = 0;
            buffer.delete_glyph();
        } else if !buffer.next_glyph()? {
            return Ok(false);
        }
    }
    buffer.sync()
}

/// # Requires
///
/// - `buffer.old.have_output ≡ true`
fn put_rest_out(buffer: &mut hb_buffer_t) -> Result<bool, AllocError> {
    debug_assert!(buffer.have_output());
    while buffer.lookahead_len() > 0 {
        if !buffer.next_glyph()? {
            return Ok(false);
        }
    }
    buffer.sync()
}

/// # Requires
///
/// - `buffer.old.have_output ≡ true`
fn rewind_to_the_end(buffer: &mut hb_buffer_t) -> Result<bool, AllocError> {
    debug_assert!(buffer.have_output());
    for _ in 0..buffer.len() {
        if buffer.lookahead_len() < PUT_OUT {
            break;
        }
        if !rewind_once(buffer)? {
            return Ok(false);
        }
    }
    buffer.sync()
}

/// # Requires
///
/// - `opened: buffer.old.have_output ≡ true`
/// - `glyphs: PUT_OUT ≤ lookahead_len buffer.old`
fn rewind_once(buffer: &mut hb_buffer_t) -> Result<bool, AllocError> {
    debug_assert!(buffer.have_output());
    for _ in 0..PUT_OUT {
        if !buffer.next_glyph()? {
            return Ok(false);
        }
    }
    buffer.move_to(buffer.out_len().saturating_sub(TAKEN_BACK))
}
