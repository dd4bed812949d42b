// Written by tools/plain_rust from crates/glyph_sides. Do not edit.

//! Glyphs that are moved in a list.

use crate::glyph::hb_glyph_info_t;
use crate::memory::{AllocError, Vec};

const BLANK: hb_glyph_info_t = hb_glyph_info_t {
    glyph_id: 0,
    mask: 0,
    cluster: 0,
    var1: 0,
    var2: 0,
};

/// Moves `count` glyphs down, over those in between.
///
/// # Requires
///
/// - `down: to ≤ from`
/// - `within: from + count ≤ vec_len info.old`
#[inline(always)]
pub(crate) fn put_down(info: &mut Vec<hb_glyph_info_t>, to: usize, from: usize, count: usize) {
    debug_assert!(to <= from);
    debug_assert!(from + count <= info.len());
    info.copy_within(from..from + count, to);
}

/// Puts the glyphs that were put out in place behind a separate output, with room for `more` behind
/// them.
///
/// # Requires
///
/// - `fits: length placed.now + more < 2 ^ 64`
pub(crate) fn leave(
    out: &mut Vec<hb_glyph_info_t>,
    placed: &[hb_glyph_info_t],
    more: usize,
) -> Result<(), AllocError> {
    out.reserve(placed.len() + more)?;
    out.extend_from_slice(placed).unwrap();
    Ok(())
}

/// Moves the glyphs from a place on down, over those in between.
///
/// # Requires
///
/// - `down: to ≤ from`
/// - `within: from ≤ vec_len info.old`
#[inline(never)]
pub(crate) fn close_gap(info: &mut Vec<hb_glyph_info_t>, to: usize, from: usize) {
    debug_assert!(to <= from);
    debug_assert!(from <= info.len());
    if to < from {
        let count = info.len() - from;
        put_down(info, to, from, count);
        info.truncate(to + count);
    }
}

/// Moves the glyphs from `start` to `end` up, so that they end at a place: the input then begins with
/// them.
///
/// # Requires
///
/// - `order: start ≤ end`
/// - `up: end ≤ at`
/// - `within: at ≤ vec_len info.old`
pub(crate) fn shift_up(info: &mut Vec<hb_glyph_info_t>, start: usize, end: usize, at: usize) {
    debug_assert!(start <= end);
    debug_assert!(end <= at);
    debug_assert!(at <= info.len());
    shift_range(info, start, end, at);
}

/// Moves a range as `shift_up` does. Its clauses speak of the range, as those of `copy_within` do.
///
/// # Requires
///
/// - `order: start ≤ end`
/// - `up: end ≤ at`
/// - `within: at ≤ vec_len info.old`
fn shift_range(info: &mut Vec<hb_glyph_info_t>, start: usize, end: usize, at: usize) {
    debug_assert!(start <= end);
    debug_assert!(end <= at);
    debug_assert!(at <= info.len());
    info.as_mut_slice()
        .copy_within(start..end, at - (end - start));
}

/// Makes room for more glyphs, from `least` to `ample` of them, and answers for how many. Where there
/// is room for `least`, it takes what there is and asks for no memory. Else it asks for memory for
/// `ample`, or where there is none for so many, for `least`.
///
/// # Requires
///
/// - `least ≤ ample`
pub(crate) fn reserve_ample(
    info: &mut Vec<hb_glyph_info_t>,
    least: usize,
    ample: usize,
) -> Result<usize, AllocError> {
    debug_assert!(least <= ample);
    let spare = info.capacity() - info.len();
    if least <= spare {
        return Ok(ample.min(spare));
    }
    if info.reserve(ample).is_ok() {
        return Ok(ample);
    }
    info.reserve(least)?;
    Ok(least)
}

/// Moves the glyphs from a place on up by `more`, where there is room.
///
/// # Requires
///
/// - `within: at ≤ vec_len info.old`
/// - `room: vec_len info.old + more ≤ vec_capacity info.old`
pub(crate) fn open_gap(info: &mut Vec<hb_glyph_info_t>, at: usize, more: usize) {
    debug_assert!(at <= info.len());
    debug_assert!(info.len() + more <= info.capacity());
    let len = info.len();
    info.resize(len + more, BLANK).unwrap();
    info.as_mut_slice().copy_within(at..len, at + more);
}

/// Writes glyphs in front of a place.
///
/// # Requires
///
/// - `within: at ≤ vec_len info.old`
/// - `fits: length glyphs.now ≤ at`
pub(crate) fn write_before(info: &mut Vec<hb_glyph_info_t>, at: usize, glyphs: &[hb_glyph_info_t]) {
    debug_assert!(at <= info.len());
    debug_assert!(glyphs.len() <= at);
    info.as_mut_slice()[at - glyphs.len()..at].copy_from_slice(glyphs);
}
