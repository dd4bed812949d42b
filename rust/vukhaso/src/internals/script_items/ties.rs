// Written by tools/plain_rust from crates/script_items. Do not edit.

//! Characters that hang on others elsewhere in the text, from which they may not be cut off.

use crate::buffer::{hb_buffer_t, hb_glyph_info_t};

/// What a character has to do with others elsewhere in the text.
#[derive(Clone, Copy, PartialEq, Eq, Debug)]
pub enum Tie {
    /// Others hang on it: what they become depends on whether their text has such a character.
    Anchor,
    /// It hangs on the anchors.
    Hanging,
    /// Neither.
    Loose,
}

/// Which characters hang on which.
pub trait Ties {
    /// What the character at a place has to do with others.
    ///
    /// # Proved
    ///
    /// That it returns.
    fn tie_of(&self, infos: &[hb_glyph_info_t], place: usize) -> Tie;
}

/// Marks as unsafe to break where a part would have characters that hang on anchors, and no anchor:
/// from the first of them up to the first anchor, and from the last anchor up to the last of them.
///
/// # Requires
///
/// That no output is open.
///
/// - `buffer.old.have_output ≡ false`
///
/// # Proved
///
/// ```text
/// ensures closed { buffer.new.have_output ≡ false }
/// ensures keeps { KeepsClusters buffer.old buffer.new }
/// ```
#[inline]
pub fn keep_tied<T: Ties>(buffer: &mut hb_buffer_t, ties: &T) {
    debug_assert!(!buffer.have_output());
    keep_first(buffer, ties);
    keep_last(buffer, ties);
}

/// Marks what lies between the first character that hangs on the first anchor, and that.
///
/// # Requires
///
/// - `buffer.old.have_output ≡ false`
fn keep_first<T: Ties>(buffer: &mut hb_buffer_t, ties: &T) {
    debug_assert!(!buffer.have_output());
    let infos = buffer.info();
    let pair = first_tied(&|place| ties.tie_of(infos, place), infos.len());
    keep_together(buffer, pair);
}

/// Marks what lies between the last anchor and the last character that hangs on it.
///
/// # Requires
///
/// - `buffer.old.have_output ≡ false`
fn keep_last<T: Ties>(buffer: &mut hb_buffer_t, ties: &T) {
    debug_assert!(!buffer.have_output());
    let infos = buffer.info();
    let pair = last_tied(&|place| ties.tie_of(infos, place), infos.len());
    keep_together(buffer, pair);
}

/// Marks two characters, and what lies between them, as unsafe to break, if there are two.
///
/// # Requires
///
/// - `closed: buffer.old.have_output ≡ false`
/// - `within: IfSome pair (λ pair. (pair.0 < pair.1) × (pair.1 < length buffer.old.input))`
fn keep_together(buffer: &mut hb_buffer_t, pair: Option<(usize, usize)>) {
    debug_assert!(!buffer.have_output());
    if let Some((first, last)) = pair {
        keep_between(buffer, first, last);
    }
}

/// Marks two characters, and what lies between them, as unsafe to break.
///
/// # Requires
///
/// - `closed: buffer.old.have_output ≡ false`
/// - `order: first < last`
/// - `within: last < length buffer.old.input`
fn keep_between(buffer: &mut hb_buffer_t, first: usize, last: usize) {
    debug_assert!(!buffer.have_output());
    debug_assert!(first < last);
    debug_assert!(last < buffer.info().len());
    debug_assert!(last < buffer.len());
    buffer.unsafe_to_break(Some(first), Some(last + 1));
}

/// The first character that hangs on an anchor behind it, and the first anchor.
///
/// # Requires
///
/// - `F.IsAlwaysCallable tie_at.now`
fn first_tied<F: Fn(usize) -> Tie>(tie_at: &F, count: usize) -> Option<(usize, usize)> {
    let anchor = first_of(tie_at, Tie::Anchor, count)?;
    let first = first_of(tie_at, Tie::Hanging, anchor)?;
    Some((first, anchor))
}

/// The last anchor, and the last character that hangs on it behind it.
///
/// # Requires
///
/// - `F.IsAlwaysCallable tie_at.now`
fn last_tied<F: Fn(usize) -> Tie>(tie_at: &F, count: usize) -> Option<(usize, usize)> {
    let anchor = last_of(tie_at, Tie::Anchor, 0, count)?;
    let last = last_of(tie_at, Tie::Hanging, anchor + 1, count)?;
    Some((anchor, last))
}

/// The first of the places before `end` with a tie.
///
/// # Requires
///
/// - `F.IsAlwaysCallable tie_at.now`
fn first_of<F: Fn(usize) -> Tie>(tie_at: &F, wanted: Tie, end: usize) -> Option<usize> {
    for place in 0..end {
        if is_same(tie_at(place), wanted) {
            return Some(place);
        }
    }
    None
}

/// The last of the places from `start` on, before `count`, with a tie.
///
/// # Requires
///
/// - `F.IsAlwaysCallable tie_at.now`
fn last_of<F: Fn(usize) -> Tie>(
    tie_at: &F,
    wanted: Tie,
    start: usize,
    count: usize,
) -> Option<usize> {
    let mut end = count;
    while end > start {
        end -= 1;
        if is_same(tie_at(end), wanted) {
            return Some(end);
        }
    }
    None
}

/// Whether a tie is this one.
fn is_same(tie: Tie, wanted: Tie) -> bool {
    match tie {
        Tie::Anchor => matches!(wanted, Tie::Anchor),
        Tie::Hanging => matches!(wanted, Tie::Hanging),
        Tie::Loose => matches!(wanted, Tie::Loose),
    }
}
