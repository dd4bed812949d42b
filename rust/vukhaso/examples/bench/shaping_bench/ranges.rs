// Written by tools/plain_rust from crates/shaping_bench. Do not edit.

//! Merges and break flags over ranges of a list with no output open, as each function requires. Each stands out of line,
//! so that its time does not depend on what stands beside it.

use vukhaso::internals::buffer::hb_buffer_t;

/// Merges each glyph with the next.
///
/// # Requires
///
/// - `buffer.old.have_output ≡ false`
///
/// # Proved
///
/// That it returns.
#[inline(never)]
pub fn merge_sliding(buffer: &mut hb_buffer_t) {
    debug_assert!(!buffer.have_output());
    for i in 0..buffer.len().saturating_sub(1) {
        buffer.merge_clusters(i, i + 2);
    }
}

/// Merges two glyphs, and then the next two.
///
/// # Requires
///
/// - `buffer.old.have_output ≡ false`
///
/// # Proved
///
/// That it returns.
#[inline(never)]
pub fn merge_pairs(buffer: &mut hb_buffer_t) {
    debug_assert!(!buffer.have_output());
    for pair in 0..buffer.len() / 2 {
        buffer.merge_clusters(2 * pair, 2 * pair + 2);
    }
}

/// Makes one cluster of two glyphs that share a grapheme, and then of the next two.
///
/// # Requires
///
/// - `buffer.old.have_output ≡ false`
///
/// # Proved
///
/// That it returns.
#[inline(never)]
pub fn merge_graphemes(buffer: &mut hb_buffer_t) {
    debug_assert!(!buffer.have_output());
    for pair in 0..buffer.len() / 2 {
        let end = 2 * pair + 2;
        if end > buffer.len() {
            break;
        }
        buffer.merge_grapheme_clusters(2 * pair, end);
    }
}

/// Marks four glyphs from each on.
///
/// # Requires
///
/// - `buffer.old.have_output ≡ false`
///
/// # Proved
///
/// That it returns.
#[inline(never)]
pub fn unsafe_sliding(buffer: &mut hb_buffer_t) {
    debug_assert!(!buffer.have_output());
    for i in 0..buffer.len().saturating_sub(3) {
        let end = i + 4;
        if end > buffer.len() {
            break;
        }
        buffer.unsafe_to_break(Some(i), Some(end));
    }
}

/// Marks four glyphs, and then the next four.
///
/// # Requires
///
/// - `buffer.old.have_output ≡ false`
///
/// # Proved
///
/// That it returns.
#[inline(never)]
pub fn unsafe_windows(buffer: &mut hb_buffer_t) {
    debug_assert!(!buffer.have_output());
    for window in 0..buffer.len() / 4 {
        let end = 4 * window + 4;
        if end > buffer.len() {
            break;
        }
        buffer.unsafe_to_break(Some(4 * window), Some(end));
    }
}
