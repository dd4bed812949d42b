// Written by tools/plain_rust from crates/script_letters. Do not edit.

//! The vowel AM of Thai and Lao: its ring belongs above the consonant, before the marks that stand above it, and only the rest behind
//! the consonant.

use crate::buffer::{HB_BUFFER_CLUSTER_LEVEL_MONOTONE_GRAPHEMES, hb_buffer_t, hb_glyph_info_t};
use crate::memory::AllocError;
use crate::script_items::item::become_mark;
use crate::script_items::moves::{merge_out, move_out_back};

/// A Lao character of these stands so far behind the Thai one.
const LAO: u32 = 0x80;

/// Whether the character is the vowel AM.
pub(crate) fn is_sara_am(character: u32) -> bool {
    character == 0xE33 || character == 0xE33 + LAO
}

/// Whether the character is a mark above its base, which the ring of AM goes in front of.
fn is_above_base(character: u32) -> bool {
    matches!(
        character,
        0xE31 | 0xE34..=0xE37 | 0xE3B | 0xE47..=0xE4E | 0xEB1 | 0xEB4..=0xEB7 | 0xEBB | 0xEC7..=0xECE
    )
}

/// Takes each vowel AM apart: its ring is put before the marks above the consonant, and the rest stays.
///
/// # Requires
///
/// - `buffer.old.have_output ≡ false`
///
/// # Errors
///
/// `Err(AllocError)` where memory ran out.
///
/// # Proved
///
/// ```text
/// ensures closed { IfOk result (λ done. done ≡ true → buffer.new.have_output ≡ false) }
/// ensures refusal { IsRefusal false result buffer.new }
/// ensures keeps { KeepsClusters buffer.old buffer.new }
/// ```
#[inline]
pub fn split_all(buffer: &mut hb_buffer_t) -> Result<bool, AllocError> {
    debug_assert!(!buffer.have_output());
    if plain_length(buffer.info()) == buffer.info().len() {
        return Ok(true);
    }
    buffer.clear_output();
    for _turn in 0..buffer.len() {
        if !split_next(buffer)? {
            return Ok(false);
        }
        if buffer.lookahead_len() == 0 {
            break;
        }
    }
    buffer.sync()
}

/// How many characters stand before the first vowel AM.
fn plain_length(infos: &[hb_glyph_info_t]) -> usize {
    for (i, info) in infos.iter().enumerate() {
        if is_sara_am(info.glyph_id) {
            return i;
        }
    }
    infos.len()
}

/// Reads up to the next vowel AM, and takes that apart.
///
/// # Requires
///
/// - `buffer.old.have_output ≡ true`
fn split_next(buffer: &mut hb_buffer_t) -> Result<bool, AllocError> {
    debug_assert!(buffer.have_output());
    let plain = plain_length(buffer.info());
    if !buffer.next_glyphs(plain)? {
        return Ok(false);
    }
    if buffer.lookahead_len() == 0 {
        return Ok(true);
    }
    split_current(buffer)
}

/// Takes the vowel AM at the cursor apart.
///
/// # Requires
///
/// - `HasCurrent buffer.old`
fn split_current(buffer: &mut hb_buffer_t) -> Result<bool, AllocError> {
    debug_assert!(buffer.have_output() && !buffer.info().is_empty());
    let character = buffer.cur(0).glyph_id;
    let Some((ring, rest)) = parts_of(character) else {
        return buffer.next_glyph();
    };
    if !put_ring(buffer, ring)? || !buffer.replace_glyph(rest)? {
        return Ok(false);
    }
    move_ring(buffer);
    Ok(true)
}

/// The ring and the rest of a vowel AM.
fn parts_of(character: u32) -> Option<(u32, u32)> {
    if is_sara_am(character) {
        Some((character + 0x1A, character - 1))
    } else {
        None
    }
}

/// Puts the ring out, as a mark that goes on with the grapheme before it.
///
/// # Requires
///
/// - `HasCurrent buffer.old`
fn put_ring(buffer: &mut hb_buffer_t, ring: u32) -> Result<bool, AllocError> {
    debug_assert!(buffer.have_output() && !buffer.info().is_empty());
    if !buffer.output_glyph(ring)? {
        return Ok(false);
    }
    mark_last(buffer);
    Ok(true)
}

/// Makes the item that was put out last a mark that goes on with the grapheme before it.
///
/// # Requires
///
/// - `buffer.old.have_output ≡ true`
fn mark_last(buffer: &mut hb_buffer_t) {
    debug_assert!(buffer.have_output());
    become_last_mark(buffer.out_info_mut());
}

/// Makes the last of these items such a mark.
fn become_last_mark(infos: &mut [hb_glyph_info_t]) {
    let count = infos.len();
    if count > 0 {
        become_mark(&mut infos[count - 1]);
    }
}

/// Moves the ring, which was put out last but one, in front of the marks above the consonant. Where
/// there are none, both parts are in one cluster with the character before them.
///
/// # Requires
///
/// - `buffer.old.have_output ≡ true`
fn move_ring(buffer: &mut hb_buffer_t) {
    debug_assert!(buffer.have_output());
    let end = buffer.out_len();
    if end < 2 {
        return;
    }
    let start = run_start(buffer.out_info(), end - 2);
    place_ring(buffer, start, end);
}

/// Puts the ring, which is the last but one of `end` glyphs, before the marks from `start` on, if there
/// are any.
///
/// # Requires
///
/// - `opened: buffer.old.have_output ≡ true`
/// - `order: start + 2 ≤ end`
/// - `last: end ≡ length buffer.old.out`
fn place_ring(buffer: &mut hb_buffer_t, start: usize, end: usize) {
    debug_assert!(buffer.have_output());
    debug_assert!(start + 2 <= end);
    debug_assert!(end == buffer.out_len());
    if start + 2 < end {
        put_before_marks(buffer, start, end);
    } else {
        merge_ring(buffer, start, end);
    }
}

/// Puts the ring, which is the last but one of `end` glyphs, before the marks from `start` on.
///
/// # Requires
///
/// - `opened: buffer.old.have_output ≡ true`
/// - `order: start + 2 < end`
/// - `last: end ≡ length buffer.old.out`
fn put_before_marks(buffer: &mut hb_buffer_t, start: usize, end: usize) {
    debug_assert!(buffer.have_output());
    debug_assert!(start + 2 < end);
    debug_assert!(end == buffer.out_len());
    merge_out(buffer, start, end);
    move_out_back(buffer, start, end - 2, end - 1);
}

/// Puts both parts into one cluster with the character before them, where clusters are graphemes.
///
/// # Requires
///
/// - `opened: buffer.old.have_output ≡ true`
/// - `order: start ≤ end`
/// - `last: end ≡ length buffer.old.out`
fn merge_ring(buffer: &mut hb_buffer_t, start: usize, end: usize) {
    debug_assert!(buffer.have_output());
    debug_assert!(start <= end);
    debug_assert!(end == buffer.out_len());
    if start != 0 && buffer.cluster_level == HB_BUFFER_CLUSTER_LEVEL_MONOTONE_GRAPHEMES {
        buffer.merge_out_clusters(start - 1, end);
    }
}

/// Where the marks above the base begin that end at a place.
///
/// # Requires
///
/// - `end ≤ length infos.now`
fn run_start(infos: &[hb_glyph_info_t], end: usize) -> usize {
    debug_assert!(end <= infos.len());
    let mut start = end;
    while start > 0 && is_above_base(infos[start - 1].glyph_id) {
        start -= 1;
    }
    start
}
