// Written by tools/plain_rust from crates/script_syllables. Do not edit.

//! The syllables of a text.

use crate::buffer::{HB_BUFFER_SCRATCH_FLAG_HAS_BROKEN_SYLLABLE, hb_buffer_t, hb_glyph_info_t};
use crate::glyph_lists::groups::group_end;
use crate::script_syllables::grammar::Grammar;
use core::ops::Range;

/// A number that no kind of syllables has.
pub(crate) const NO_KIND: u8 = 15;

/// Finds the syllables of a text, and flags each as unsafe to break: each item keeps the number and the
/// kind of its syllable.
///
/// # Requires
///
/// - `buffer.old.have_output ≡ false`
///
/// # Proved
///
/// ```text
/// ensures { StaysClosed buffer.old buffer.new }
/// ```
#[inline]
pub fn find_syllables(buffer: &mut hb_buffer_t, grammar: &Grammar) {
    debug_assert!(!buffer.have_output());
    if number_items(buffer, grammar) {
        buffer.scratch_flags = buffer.scratch_flags | HB_BUFFER_SCRATCH_FLAG_HAS_BROKEN_SYLLABLE;
    }
    flag_syllables(buffer);
}

/// Lets each item keep the number and the kind of its syllable. Whether one is broken.
///
/// # Requires
///
/// - `buffer.old.have_output ≡ false`
fn number_items(buffer: &mut hb_buffer_t, grammar: &Grammar) -> bool {
    debug_assert!(!buffer.have_output());
    number_syllables(buffer.info_slice_mut(), grammar)
}

/// Does that with the items of a list.
fn number_syllables(infos: &mut [hb_glyph_info_t], grammar: &Grammar) -> bool {
    let mut has_broken = false;
    let mut start = grammar.passed_count(infos);
    let mut serial = 1;
    for _turn in 0..infos.len() {
        if start >= infos.len() {
            break;
        }
        let found = grammar.first_syllable(&mut infos[start..]);
        let end = start.saturating_add(found.length);
        set_syllable(infos, start, end, serial % 16 * 16 + found.kind % 16);
        has_broken = has_broken || found.kind == grammar.broken;
        start = end;
        serial = if serial == 15 { 1 } else { serial + 1 };
    }
    has_broken
}

/// Gives the items from `start` to `end` the number of a syllable, with its kind.
fn set_syllable(infos: &mut [hb_glyph_info_t], start: usize, end: usize, number: u8) {
    for place in start..end.min(infos.len()) {
        infos[place].set_syllable(number);
    }
}

/// Flags each syllable as unsafe to break.
///
/// # Requires
///
/// - `buffer.old.have_output ≡ false`
fn flag_syllables(buffer: &mut hb_buffer_t) {
    debug_assert!(!buffer.have_output());
    let mut start = 0;
    for _turn in 0..buffer.len() {
        if start >= buffer.len() {
            break;
        }
        let end = buffer.next_syllable(start);
        flag_syllable(buffer, start, end);
        start = end;
    }
}

/// Flags a syllable as unsafe to break, with what goes on with the cluster of its last item: that may
/// be parted from it where its items are put in order.
///
/// # Requires
///
/// - `buffer.old.have_output ≡ false`
fn flag_syllable(buffer: &mut hb_buffer_t, start: usize, end: usize) {
    debug_assert!(!buffer.have_output());
    let end = cluster_end(buffer.info(), end);
    if start <= end && end <= buffer.len() {
        buffer.unsafe_to_break(Some(start), Some(end));
    }
}

/// The end of the cluster that goes on behind a place with the item before it.
fn cluster_end(infos: &[hb_glyph_info_t], place: usize) -> usize {
    if place == 0 || place > infos.len() {
        return place;
    }
    group_end(infos, place - 1, &|a, b| a.cluster == b.cluster)
}

/// The end of the syllable that the item at a place is in.
///
/// # Requires
///
/// - `start < length infos.now`
///
/// # Proved
///
/// ```text
/// ensures after { start < result }
/// ensures until { result ≤ length infos.now }
/// ```
#[inline]
pub fn syllable_end(infos: &[hb_glyph_info_t], start: usize) -> usize {
    debug_assert!(start < infos.len());
    group_end(infos, start, &|a, b| a.syllable() == b.syllable())
}

/// What is done with the items of a syllable.
pub trait SyllableWork {
    /// Does it with one.
    ///
    /// # Proved
    ///
    /// ```text
    /// ensures { clusters syllable.new ≡ clusters syllable.old }
    /// ```
    fn work_on(&self, syllable: &mut [hb_glyph_info_t]);
}

/// Does it with each syllable of a list.
///
/// # Proved
///
/// ```text
/// ensures { clusters infos.new ≡ clusters infos.old }
/// ```
#[inline]
pub fn work_on_all<W: SyllableWork>(infos: &mut [hb_glyph_info_t], work: &W) {
    let mut start = 0;
    for _turn in 0..infos.len() {
        if start >= infos.len() {
            break;
        }
        let end = syllable_end(infos, start);
        work.work_on(&mut infos[start..end]);
        start = end;
    }
}

/// The kind of the syllable that an item is in.
pub(crate) fn kind_of(info: &hb_glyph_info_t) -> u8 {
    info.syllable() % 16
}

/// The kind of the syllable that the item at a place is in; that of none where there is no item.
///
/// # Proved
///
/// ```text
/// ensures { result ≡ kind_at infos.now place }
/// ```
#[inline]
pub fn kind_at(infos: &[hb_glyph_info_t], place: usize) -> u8 {
    match infos.get(place) {
        Some(info) => kind_of(info),
        None => NO_KIND,
    }
}

/// The items of a range; none where it does not lie in the list.
///
/// # Proved
///
/// ```text
/// ensures { result.now ≡ items_between range.now.start range.now.end infos.now }
/// ```
#[inline]
pub fn syllable<'a>(infos: &'a [hb_glyph_info_t], range: &Range<usize>) -> &'a [hb_glyph_info_t] {
    match infos.get(range.start..range.end) {
        Some(items) => items,
        None => &[],
    }
}

/// A range; one of nothing where it does not lie in a list of so many items.
///
/// # Proved
///
/// ```text
/// ensures order { result.start ≤ result.end }
/// ensures within { result.end ≤ count }
/// ```
#[inline]
pub fn within(range: &Range<usize>, count: usize) -> Range<usize> {
    if range.start <= range.end && range.end <= count {
        range.start..range.end
    } else {
        0..0
    }
}
