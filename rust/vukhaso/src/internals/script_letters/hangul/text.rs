// Written by tools/plain_rust from crates/script_letters. Do not edit.

//! The syllables of a text.

use crate::buffer::{HB_BUFFER_CLUSTER_LEVEL_MONOTONE_GRAPHEMES, hb_buffer_t, hb_glyph_info_t};
use crate::memory::AllocError;
use crate::script_items::font::FontGlyphs;
use crate::script_items::item::set_shaper_byte;
use crate::script_letters::hangul::jamo::is_tone;
use crate::script_letters::hangul::syllables::{Step, next_step, unsafe_length};
use crate::script_letters::hangul::tones::read_tone;

/// The syllable that was put out last: from its first character to behind its last. None where it is empty.
#[derive(Clone, Copy, Debug)]
pub(crate) struct Syllable {
    pub start: usize,
    pub end: usize,
}

/// Composes and takes apart syllables by what the font has, puts tone marks before their syllables, and
/// lets each jamo keep where it stands: 1 for a leading consonant, 2 for a vowel, 3 for a trailing
/// consonant.
///
/// # Requires
///
/// - `buffer.old.have_output ≡ false`
///
/// # Errors
///
/// `Err(AllocError)` where memory ran out.
///
/// # Proved
///
/// ```text
/// ensures closed { IfOk result (λ done. done ≡ true → buffer.new.have_output ≡ false) }
/// ensures refusal { IsRefusal false result buffer.new }
/// ensures keeps { KeepsClusters buffer.old buffer.new }
/// ```
#[inline]
pub fn prepare<F: FontGlyphs>(buffer: &mut hb_buffer_t, font: &F) -> Result<bool, AllocError> {
    debug_assert!(!buffer.have_output());
    buffer.clear_output();
    let mut last = Syllable { start: 0, end: 0 };
    for _turn in 0..buffer.len() {
        if buffer.lookahead_len() == 0 {
            break;
        }
        match read_next(buffer, font, last)? {
            Some(next) => last = next,
            None => return Ok(false),
        }
    }
    buffer.sync()
}

/// Reads a tone mark or a syllable.
///
/// # Requires
///
/// - `HasCurrent buffer.old`
///
/// # Errors
///
/// `None` where a call was refused.
fn read_next<F: FontGlyphs>(
    buffer: &mut hb_buffer_t,
    font: &F,
    last: Syllable,
) -> Result<Option<Syllable>, AllocError> {
    debug_assert!(buffer.have_output() && !buffer.info().is_empty());
    let first = buffer.cur(0).glyph_id;
    if !is_tone(first) {
        return read_syllable(buffer, font);
    }
    if !read_tone(buffer, font, last)? {
        return Ok(None);
    }
    let end = buffer.out_len();
    Ok(Some(Syllable { start: end, end }))
}

/// Reads a syllable, or a character that is none.
///
/// # Requires
///
/// - `HasCurrent buffer.old`
fn read_syllable<F: FontGlyphs>(
    buffer: &mut hb_buffer_t,
    font: &F,
) -> Result<Option<Syllable>, AllocError> {
    debug_assert!(buffer.have_output() && !buffer.info().is_empty());
    let first = character_at(buffer.info(), 0);
    let second = character_at(buffer.info(), 1);
    let third = character_at(buffer.info(), 2);
    let step = next_step(font, first, second, third);
    flag_unsafe(buffer, unsafe_length(step, first, second, third));
    let start = buffer.out_len();
    if buffer.lookahead_len() == 0 {
        return Ok(Some(Syllable { start, end: start }));
    }
    if !take_step(buffer, step)? {
        return Ok(None);
    }
    let end = match step {
        Step::Pass => start,
        _ => buffer.out_len(),
    };
    Ok(Some(Syllable { start, end }))
}

/// The character at a place; 0 where there is none.
fn character_at(infos: &[hb_glyph_info_t], place: usize) -> u32 {
    if place < infos.len() {
        infos[place].glyph_id
    } else {
        0
    }
}

/// Flags so many characters from the cursor on as unsafe to break.
///
/// # Requires
///
/// - `buffer.old.have_output ≡ true`
fn flag_unsafe(buffer: &mut hb_buffer_t, count: usize) {
    debug_assert!(buffer.have_output());
    let start = buffer.idx();
    let end = buffer.len();
    if count > 0 && count <= end - start {
        buffer.unsafe_to_break(Some(start), Some(start + count));
    }
}

/// Does what was decided.
///
/// # Requires
///
/// - `HasCurrent buffer.old`
fn take_step(buffer: &mut hb_buffer_t, step: Step) -> Result<bool, AllocError> {
    debug_assert!(buffer.have_output() && !buffer.info().is_empty());
    let start = buffer.out_len();
    match step {
        Step::Compose(count, syllable) if count <= buffer.lookahead_len() => {
            buffer.replace_glyphs(count, 1, &[syllable])
        }
        Step::Jamo(count) if count <= buffer.lookahead_len() => {
            if !buffer.next_glyphs(count)? {
                return Ok(false);
            }
            end_jamo(buffer, start);
            Ok(true)
        }
        Step::Decompose(jamo, takes_next) => {
            if !put_jamo(buffer, jamo, takes_next)? {
                return Ok(false);
            }
            end_jamo(buffer, start);
            Ok(true)
        }
        _ => buffer.next_glyph(),
    }
}

/// Puts the jamo of the current syllable out in its place, and the trailing consonant behind it too,
/// where it is to be taken.
///
/// # Requires
///
/// - `HasCurrent buffer.old`
fn put_jamo(
    buffer: &mut hb_buffer_t,
    jamo: (u32, u32, u32),
    takes_next: bool,
) -> Result<bool, AllocError> {
    debug_assert!(buffer.have_output() && !buffer.info().is_empty());
    let (leading, vowel, trailing) = jamo;
    let count = if trailing == 0 { 2 } else { 3 };
    if !buffer.replace_glyphs(1, count, &[leading, vowel, trailing])? {
        return Ok(false);
    }
    if takes_next && buffer.lookahead_len() > 0 {
        return buffer.next_glyph();
    }
    Ok(true)
}

/// Lets the jamo that were put out from a place on keep where they stand, in one cluster.
///
/// # Requires
///
/// - `buffer.old.have_output ≡ true`
fn end_jamo(buffer: &mut hb_buffer_t, start: usize) {
    debug_assert!(buffer.have_output());
    number_jamo(buffer, start);
    merge_jamo(buffer, start);
}

/// Puts the jamo that were put out from a place on into one cluster, where clusters are graphemes.
///
/// # Requires
///
/// - `buffer.old.have_output ≡ true`
fn merge_jamo(buffer: &mut hb_buffer_t, start: usize) {
    debug_assert!(buffer.have_output());
    let end = buffer.out_len();
    if buffer.cluster_level == HB_BUFFER_CLUSTER_LEVEL_MONOTONE_GRAPHEMES && start <= end {
        buffer.merge_out_clusters(start, end);
    }
}

/// Lets the jamo from a place on keep 1, 2 and 3.
///
/// # Requires
///
/// - `buffer.old.have_output ≡ true`
fn number_jamo(buffer: &mut hb_buffer_t, start: usize) {
    debug_assert!(buffer.have_output());
    number_all(buffer.out_info_mut(), start);
}

/// Does that with these items.
fn number_all(infos: &mut [hb_glyph_info_t], start: usize) {
    if start < infos.len() {
        number_at(infos, start, 1);
        number_at(infos, start + 1, 2);
        number_at(infos, start + 2, 3);
    }
}

/// Lets the jamo at a place keep a number, if there is one.
fn number_at(infos: &mut [hb_glyph_info_t], place: usize, number: u8) {
    if place < infos.len() {
        set_shaper_byte(&mut infos[place], number);
    }
}
