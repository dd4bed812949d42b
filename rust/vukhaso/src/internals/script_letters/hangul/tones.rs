// Written by tools/plain_rust from crates/script_letters. Do not edit.

//! Tone marks of Hangul: each is written before its syllable, and on a dotted circle where it has none.

use crate::buffer::{BufferFlags, hb_buffer_t};
use crate::memory::AllocError;
use crate::script_items::font::{FontGlyphs, has_no_width};
use crate::script_items::moves::{merge_out, move_out_back};
use crate::script_letters::hangul::text::Syllable;

/// The dotted circle, which a mark without a base is put on.
const DOTTED_CIRCLE: u32 = 0x25CC;

/// Reads a tone mark. It goes before the syllable that was put out last, unless the font's glyph for it
/// has no width.
///
/// # Requires
///
/// - `HasCurrent buffer.old`
pub(crate) fn read_tone<F: FontGlyphs>(
    buffer: &mut hb_buffer_t,
    font: &F,
    last: Syllable,
) -> Result<bool, AllocError> {
    debug_assert!(buffer.have_output() && !buffer.info().is_empty());
    let tone = buffer.cur(0).glyph_id;
    if last.start < last.end && last.end == buffer.out_len() {
        return read_after_syllable(buffer, last, !has_no_width(font, tone));
    }
    let is_allowed = !buffer
        .flags
        .contains(BufferFlags::DO_NOT_INSERT_DOTTED_CIRCLE);
    if !is_allowed || !font.has_glyph(DOTTED_CIRCLE) {
        return buffer.next_glyph();
    }
    let characters = on_circle(tone, has_no_width(font, tone));
    buffer.replace_glyphs(1, 2, &characters)
}

/// A tone mark and its dotted circle: a mark without width stands behind that, and any other one before
/// it.
fn on_circle(tone: u32, has_no_width: bool) -> [u32; 2] {
    if has_no_width {
        [DOTTED_CIRCLE, tone]
    } else {
        [tone, DOTTED_CIRCLE]
    }
}

/// Reads a tone mark that stands behind a syllable, and moves it in front of that, if it is to be
/// moved.
///
/// # Requires
///
/// - `current: HasCurrent buffer.old`
/// - `order: last.start < last.end`
/// - `ends: last.end ≡ length buffer.old.out`
fn read_after_syllable(
    buffer: &mut hb_buffer_t,
    last: Syllable,
    is_moved: bool,
) -> Result<bool, AllocError> {
    debug_assert!(buffer.have_output() && !buffer.info().is_empty());
    let read = buffer.idx();
    buffer.unsafe_to_break_from_outbuffer(Some(last.start), Some(read));
    if buffer.lookahead_len() == 0 {
        return Ok(true);
    }
    if !buffer.next_glyph()? {
        return Ok(false);
    }
    if is_moved && last.start < buffer.out_len() {
        move_tone(buffer, last.start);
    }
    Ok(true)
}

/// Moves the tone mark, which was put out last, in front of what was put out from `start` on.
///
/// # Requires
///
/// - `opened: buffer.old.have_output ≡ true`
/// - `behind: start < length buffer.old.out`
fn move_tone(buffer: &mut hb_buffer_t, start: usize) {
    debug_assert!(buffer.have_output());
    debug_assert!(start < buffer.out_len());
    let end = buffer.out_len();
    merge_out(buffer, start, end);
    move_out_back(buffer, start, end - 1, end);
}
