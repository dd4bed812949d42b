// Written by tools/plain_rust from crates/shaping_passes. Do not edit.

//! Pairs of characters are composed.

use super::rules::{CharacterPairs, MarkClasses};
use crate::buffer::hb_buffer_t;
use crate::memory::AllocError;

/// Composes pairs of characters: the last starter and each character after it that is not blocked,
/// which is then gone. What a pair composes to has the cluster of both, which are merged, and all else
/// of the starter. Call `order_marks` first. Then the cursor is at the start, and positions are off.
///
/// # Requires
///
/// That no output is open.
///
/// - `buffer.old.have_output ≡ false`
///
/// # Errors
///
/// `Ok(false)` after an earlier refusal, with nothing changed, and else `Ok(true)`: it puts out no more
/// than it reads, so it is never refused and takes no memory. `Err(AllocError)` where memory ran out.
///
/// # Proved
///
/// ```text
/// ensures result { result ≡ Ok buffer.old.successful }
/// ensures refused { buffer.old.successful ≡ false → buffer.new ≡ buffer.old }
/// ensures composed { buffer.old.successful ≡ true → cores buffer.new.input
///     ≡ composed (P.pairs compositions.now) (C.classes classes.now) (cores buffer.old.input) }
/// ensures glyphs { buffer.old.successful ≡ true → buffer.new.input
///     ≡ composed_glyphs (any_order buffer.old) (P.pairs compositions.now) (C.classes classes.now) buffer.old.input }
/// ensures monotone { IsMonotone buffer.old.input → IsMonotone buffer.new.input }
/// ensures merges { any_order buffer.old ≡ false → IsCoarse buffer.old.input
///     → IsCoarse buffer.new.input }
/// ensures others { buffer.old.successful ≡ true
///     → buffer.new ≡ closed_over buffer.new.input buffer.old }
/// ```
#[inline]
pub fn compose_marks<P: CharacterPairs, C: MarkClasses>(
    buffer: &mut hb_buffer_t,
    compositions: &P,
    classes: &C,
) -> Result<bool, AllocError> {
    debug_assert!(!buffer.have_output());
    if !buffer.successful() {
        return Ok(false);
    }
    // Read for what its contract says: the list is no longer than `max_len`.
    let _ = buffer.len();
    buffer.clear_output();
    let mut starter = None;
    while buffer.lookahead_len() > 0 {
        starter = next_turn(buffer, compositions, classes, starter);
    }
    buffer.sync()
}

/// Reads one character, and composes it with the last starter, which stands on the out side, or puts it
/// out. Gives the place of the last starter.
///
/// # Requires
///
/// - `ready: IsReady buffer.old`
/// - `some: 0 < length buffer.old.input`
/// - `place: IsPlace starter buffer.old`
///
/// # Proved
///
/// ```text
/// ensures ready { IsReady buffer.new }
/// ensures place { IsPlace result buffer.new }
/// ensures same { so_far (P.pairs compositions.now) (C.classes classes.now) result (cores buffer.new.out) (cores buffer.new.input)
///     ≡ so_far (P.pairs compositions.now) (C.classes classes.now) starter (cores buffer.old.out) (cores buffer.old.input) }
/// ensures glyphs { composed_at (any_order buffer.old) (P.pairs compositions.now) (C.classes classes.now) result (length buffer.new.out)
///     (length buffer.new.input) (both buffer.new)
///     ≡ composed_at (any_order buffer.old) (P.pairs compositions.now) (C.classes classes.now) starter (length buffer.old.out)
///     (length buffer.old.input) (both buffer.old) }
/// ensures merges { any_order buffer.old ≡ false → IsCoarse (both buffer.old)
///     → IsCoarse (both buffer.new) }
/// ensures others { buffer.new ≡ record buffer.old {
///       out = buffer.new.out;
///       input = buffer.new.input;
///       idx = buffer.new.idx;
///     } }
/// ensures shorter { length buffer.new.input < length buffer.old.input }
/// ensures keeps { KeepsClusters buffer.old buffer.new }
/// ```
#[inline]
pub fn next_turn<P: CharacterPairs, C: MarkClasses>(
    buffer: &mut hb_buffer_t,
    compositions: &P,
    classes: &C,
    starter: Option<usize>,
) -> Option<usize> {
    debug_assert!(!buffer.info().is_empty());
    match starter {
        Some(at) => match pair_at(buffer, compositions, classes, at) {
            Some(id) => {
                compose_pair(buffer, at, id);
                Some(at)
            }
            None => keep_behind(buffer, classes, Some(at)),
        },
        None => keep_behind(buffer, classes, None),
    }
}

/// Puts the character at the cursor out. Gives the place of the last starter, which may be this one.
///
/// # Requires
///
/// - `ready: IsReady buffer.old`
/// - `some: 0 < length buffer.old.input`
fn keep_behind<C: MarkClasses>(
    buffer: &mut hb_buffer_t,
    classes: &C,
    starter: Option<usize>,
) -> Option<usize> {
    debug_assert!(!buffer.info().is_empty());
    let class = classes.class_of(buffer.cur(0));
    let at = buffer.out_len();
    keep_one(buffer);
    if class == 0 { Some(at) } else { starter }
}

/// What the starter at place `at` of the out side and the character at the cursor compose to.
///
/// # Requires
///
/// - `opened: buffer.now.have_output ≡ true`
/// - `some: 0 < length buffer.now.input`
/// - `place: at < length buffer.now.out`
fn pair_at<P: CharacterPairs, C: MarkClasses>(
    buffer: &hb_buffer_t,
    compositions: &P,
    classes: &C,
    at: usize,
) -> Option<u32> {
    debug_assert!(buffer.have_output());
    debug_assert!(!buffer.info().is_empty());
    debug_assert!(at < buffer.out_len());
    let out = buffer.out_info();
    let info = buffer.cur(0);
    let last = out.len() - 1;
    if at < last && classes.class_of(info) <= classes.class_of(&out[last]) {
        return None;
    }
    compositions.composed_of(&out[at], info)
}

/// Merges the glyph at the cursor into the one at place `at` of the out side, which gets another id.
///
/// # Requires
///
/// - `ready: IsReady buffer.old`
/// - `some: 0 < length buffer.old.input`
/// - `place: at < length buffer.old.out`
fn compose_pair(buffer: &mut hb_buffer_t, at: usize, id: u32) {
    debug_assert!(!buffer.info().is_empty());
    debug_assert!(at < buffer.out_len());
    keep_one(buffer);
    let end = buffer.out_len();
    buffer.merge_out_clusters(at, end);
    let _ = buffer.move_to(end - 1);
    buffer.skip_glyph();
    set_id(buffer, at, id);
}

/// Gives a glyph on the out side another id.
///
/// # Requires
///
/// - `at < length buffer.old.out`
fn set_id(buffer: &mut hb_buffer_t, at: usize, id: u32) {
    debug_assert!(at < buffer.out_len());
    buffer.out_info_mut()[at].glyph_id = id;
}

/// Puts the glyph at the cursor out.
///
/// # Requires
///
/// - `ready: IsReady buffer.old`
/// - `some: 0 < length buffer.old.input`
fn keep_one(buffer: &mut hb_buffer_t) {
    debug_assert!(!buffer.info().is_empty());
    let _ = buffer.next_glyph();
}
