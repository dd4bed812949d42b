// Written by tools/plain_rust from crates/script_syllables. Do not edit.

//! Sequences of vowels that look like another vowel: a dotted circle parts them (OpenType, "Creating and supporting OpenType fonts for
//! the Universal Shaping Engine", "Independent vowels that are not to be used with vowel signs").

use crate::buffer::{hb_buffer_t, hb_glyph_info_t};
use crate::common::Script;
use crate::glyph::hb_gc::{
    RB_UNICODE_GENERAL_CATEGORY_NON_SPACING_MARK, RB_UNICODE_GENERAL_CATEGORY_SPACING_MARK,
};
use crate::glyph::{BufferFlags, CharExt, UnicodeProps};
use crate::memory::AllocError;
use crate::script_items::item::general_category;
use crate::script_syllables::dotted_circle::DOTTED_CIRCLE;
use crate::script_syllables::vowel_sequences::third_vowel;

/// Puts a dotted circle before the last character of each sequence that looks like another vowel of the
/// text's script.
///
/// # Requires
///
/// - `buffer.old.have_output ≡ false`
///
/// # Errors
///
/// `Ok(false)` where the text would become too long. `Err(AllocError)` where memory ran out.
///
/// # Proved
///
/// ```text
/// ensures closed { IfOk result (λ done. done ≡ true → buffer.new.have_output ≡ false) }
/// ensures refusal { IsRefusal false result buffer.new }
/// ensures keeps { KeepsClusters buffer.old buffer.new }
/// ```
#[inline]
pub fn part_vowels(buffer: &mut hb_buffer_t) -> Result<bool, AllocError> {
    debug_assert!(!buffer.have_output());
    if buffer
        .flags
        .contains(BufferFlags::DO_NOT_INSERT_DOTTED_CIRCLE)
        || !has_sequence(buffer)
    {
        return Ok(true);
    }
    buffer.clear_output();
    if !read_all(buffer)? {
        return Ok(false);
    }
    buffer.sync()
}

/// Reads all characters, with the dotted circles.
///
/// # Requires
///
/// - `buffer.old.have_output ≡ true`
fn read_all(buffer: &mut hb_buffer_t) -> Result<bool, AllocError> {
    debug_assert!(buffer.have_output());
    for _turn in 0..buffer.len() {
        if buffer.lookahead_len() == 0 {
            break;
        }
        if !read_next(buffer)? {
            return Ok(false);
        }
    }
    Ok(true)
}

/// Reads a character, or a sequence with a dotted circle before its last character.
///
/// # Requires
///
/// - `HasCurrent buffer.old`
fn read_next(buffer: &mut hb_buffer_t) -> Result<bool, AllocError> {
    debug_assert!(buffer.have_output() && !buffer.info().is_empty());
    let Some(count) = sequence_length(buffer) else {
        return buffer.next_glyph();
    };
    keep_sequence(buffer, count);
    let before = count.saturating_sub(1).min(buffer.lookahead_len());
    if !buffer.next_glyphs(before)? {
        return Ok(false);
    }
    if !buffer.output_glyph(DOTTED_CIRCLE)? {
        return Ok(false);
    }
    begin_grapheme(buffer);
    if buffer.lookahead_len() == 0 {
        return Ok(true);
    }
    buffer.next_glyph()
}

/// Marks a sequence at the cursor as unsafe to break: its last character alone has no dotted circle.
///
/// # Requires
///
/// - `buffer.old.have_output ≡ true`
fn keep_sequence(buffer: &mut hb_buffer_t, count: usize) {
    debug_assert!(buffer.have_output());
    let start = buffer.idx();
    buffer.unsafe_to_break(Some(start), Some(start.saturating_add(count)));
}

/// Whether the text has such a sequence.
fn has_sequence(buffer: &hb_buffer_t) -> bool {
    let infos = buffer.info();
    for place in 0..infos.len() {
        if length_of_sequence(&infos[place..], buffer.script).is_some() {
            return true;
        }
    }
    false
}

/// How many characters the sequence at the cursor has; `None` where there is none.
fn sequence_length(buffer: &hb_buffer_t) -> Option<usize> {
    length_of_sequence(buffer.info(), buffer.script)
}

/// How many characters the sequence of a script has that these begin with; `None` where there is none.
#[inline(always)]
fn length_of_sequence(infos: &[hb_glyph_info_t], script: Option<Script>) -> Option<usize> {
    let first = char::from_u32(infos.first()?.glyph_id)?;
    let second = infos.get(1)?;
    if !is_mark(second) {
        return None;
    }
    let third = third_vowel(first, second.glyph_id)?;
    if script != Some(first.script()) {
        return None;
    }
    match third {
        None => Some(2),
        Some(third) if infos.get(2)?.glyph_id == third as u32 => Some(3),
        Some(_) => None,
    }
}

/// Whether the character is a mark, as the second of each sequence is.
fn is_mark(info: &hb_glyph_info_t) -> bool {
    matches!(
        general_category(info),
        RB_UNICODE_GENERAL_CATEGORY_SPACING_MARK | RB_UNICODE_GENERAL_CATEGORY_NON_SPACING_MARK
    )
}

/// Lets the last item that was put out begin a grapheme.
///
/// # Requires
///
/// - `buffer.old.have_output ≡ true`
fn begin_grapheme(buffer: &mut hb_buffer_t) {
    debug_assert!(buffer.have_output());
    begin_with_last(buffer.out_info_mut());
}

/// Lets the last item begin a grapheme.
fn begin_with_last(infos: &mut [hb_glyph_info_t]) {
    if !infos.is_empty() {
        let last = infos.len() - 1;
        let properties = infos[last].unicode_props() & !UnicodeProps::CONTINUATION.bits();
        infos[last].set_unicode_props(properties);
    }
}
