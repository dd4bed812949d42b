// Written by tools/plain_rust from crates/aat_substitution. Do not edit.

//! Subtables that put glyphs in another order.

use crate::aat_tables::Entry;
use crate::buffer::cluster_level::{
    HB_BUFFER_CLUSTER_LEVEL_CHARACTERS, HB_BUFFER_CLUSTER_LEVEL_GRAPHEMES,
};
use crate::buffer::hb_buffer_t;
use crate::glyph::hb_glyph_info_t;

/// The current glyph is the first that is put in order.
const MARK_FIRST: u16 = 0x8000;

/// The current glyph is the last that is put in order.
const MARK_LAST: u16 = 0x2000;

/// The bits of how glyphs are put in order.
const VERB: u16 = 0x000F;

/// No more glyphs are put in order (HarfBuzz, `HB_MAX_CONTEXT_LENGTH`).
const MAX_GLYPHS: usize = 64;

/// How many glyphs at an end are moved to the other end.
#[derive(Clone, Copy, PartialEq, Eq, Debug)]
enum End {
    /// None.
    None,
    /// One.
    One,
    /// Two.
    Two,
    /// Two, which change places.
    Swapped,
}

impl End {
    /// How many glyphs these are.
    fn len(self) -> usize {
        match self {
            End::None => 0,
            End::One => 1,
            End::Two | End::Swapped => 2,
        }
    }
}

/// What each verb moves: glyphs at the start to the end, and glyphs at the end to the start.
const VERBS: [(End, End); 16] = [
    (End::None, End::None),
    (End::One, End::None),
    (End::None, End::One),
    (End::One, End::One),
    (End::Two, End::None),
    (End::Swapped, End::None),
    (End::None, End::Two),
    (End::None, End::Swapped),
    (End::One, End::Two),
    (End::One, End::Swapped),
    (End::Two, End::One),
    (End::Swapped, End::One),
    (End::Two, End::Two),
    (End::Swapped, End::Two),
    (End::Two, End::Swapped),
    (End::Swapped, End::Swapped),
];

/// The glyphs that are put in order next.
#[derive(Clone, Copy, Debug)]
pub(crate) struct Rearrangement {
    start: usize,
    end: usize,
}

impl Rearrangement {
    /// No glyphs.
    pub(crate) fn new() -> Self {
        Rearrangement { start: 0, end: 0 }
    }

    /// Whether an entry puts glyphs in order.
    pub(crate) fn is_actionable(&self, entry: &Entry) -> bool {
        entry.flags & VERB != 0 && self.start < self.end
    }

    /// Does what an entry says, at the cursor.
    ///
    /// # Requires
    ///
    /// - `buffer.old.have_output ≡ false`
    pub(crate) fn obey(&mut self, buffer: &mut hb_buffer_t, entry: &Entry) {
        debug_assert!(!buffer.have_output());
        if entry.flags & MARK_FIRST != 0 {
            self.start = buffer.idx();
        }
        let behind = buffer.idx().saturating_add(1).min(buffer.len());
        if entry.flags & MARK_LAST != 0 {
            self.end = behind;
        }
        if self.is_actionable(entry) {
            let (left, right) = VERBS[usize::from(entry.flags & VERB)];
            self.rearrange(buffer, behind, left, right);
        }
    }

    /// Puts the glyphs in order. `behind` is the place behind the current glyph.
    ///
    /// # Requires
    ///
    /// - `buffer.old.have_output ≡ false`
    fn rearrange(&self, buffer: &mut hb_buffer_t, behind: usize, left: End, right: End) {
        debug_assert!(!buffer.have_output());
        let (start, end) = (self.start, self.end);
        let count = end.saturating_sub(start);
        if count < left.len() + right.len() || count > MAX_GLYPHS {
            return;
        }
        merge(buffer, start, behind);
        merge(buffer, start, end);
        turn(buffer, start, end);
        turn_two(buffer, right, start);
        turn(
            buffer,
            start.saturating_add(right.len()),
            end.saturating_sub(left.len()),
        );
        turn_two(buffer, left, end.saturating_sub(2));
    }
}

/// Puts the two glyphs of an end in their order again, if they are to keep it.
///
/// # Requires
///
/// - `buffer.old.have_output ≡ false`
fn turn_two(buffer: &mut hb_buffer_t, end: End, start: usize) {
    debug_assert!(!buffer.have_output());
    if end == End::Two {
        turn(buffer, start, start.saturating_add(2));
    }
}

/// Puts the glyphs from a place to another into one cluster.
///
/// # Requires
///
/// - `buffer.old.have_output ≡ false`
fn merge(buffer: &mut hb_buffer_t, start: usize, end: usize) {
    debug_assert!(!buffer.have_output());
    if start <= end && end <= buffer.len() {
        buffer.merge_clusters(start, end);
    }
}

/// Puts the glyphs from a place to another into reverse order, which are in one cluster, unless
/// clusters may stand in any order.
///
/// # Requires
///
/// - `buffer.old.have_output ≡ false`
fn turn(buffer: &mut hb_buffer_t, start: usize, end: usize) {
    debug_assert!(!buffer.have_output());
    if start <= end && end <= buffer.len() && may_turn(buffer, start, end) {
        buffer.reverse_range(start, end);
    }
}

/// Whether glyphs are in one cluster, or clusters may stand in any order.
///
/// # Requires
///
/// - `order: start ≤ end`
/// - `within: end ≤ length buffer.now.input`
fn may_turn(buffer: &hb_buffer_t, start: usize, end: usize) -> bool {
    debug_assert!(start <= end);
    debug_assert!(end <= buffer.info().len());
    if may_stand_in_any_order(buffer) {
        return true;
    }
    is_one_cluster(buffer.info(), start, end)
}

/// Whether clusters may stand in any order.
fn may_stand_in_any_order(buffer: &hb_buffer_t) -> bool {
    buffer.cluster_level == HB_BUFFER_CLUSTER_LEVEL_CHARACTERS
        || buffer.cluster_level == HB_BUFFER_CLUSTER_LEVEL_GRAPHEMES
}

/// Whether the glyphs from a place to another are in one cluster.
///
/// # Requires
///
/// - `end ≤ length glyphs.now`
fn is_one_cluster(glyphs: &[hb_glyph_info_t], start: usize, end: usize) -> bool {
    debug_assert!(end <= glyphs.len());
    for place in start..end {
        if glyphs[place].cluster != glyphs[start].cluster {
            return false;
        }
    }
    true
}
