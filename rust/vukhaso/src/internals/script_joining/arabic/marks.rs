// Written by tools/plain_rust from crates/script_joining. Do not edit.

//! Marks that belong next to their letter, before other marks (Unicode Technical Report 53).

use crate::buffer::{hb_buffer_t, hb_glyph_info_t};
use crate::glyph::modified_combining_class::{CCC22, CCC26};
use crate::script_items::item::{modified_combining_class, set_modified_combining_class};
use crate::script_items::moves::{merge, move_back};

/// The classes of marks below and above.
const BELOW: u16 = 220;

const ABOVE: u16 = 230;

/// Puts modifier combining marks before the other marks of their letter, those below and then those
/// above. They get classes that come first too.
///
/// # Requires
///
/// - `buffer.old.have_output ≡ false`
///
/// # Proved
///
/// ```text
/// ensures is { buffer.new ≡ arabic.marks_reordered start end buffer.old }
/// ensures stays { StaysClosed buffer.old buffer.new }
/// ```
#[inline]
pub fn reorder_marks(buffer: &mut hb_buffer_t, start: usize, end: usize) {
    debug_assert!(!buffer.have_output());
    if start > end || end > buffer.len() {
        return;
    }
    let behind = move_marks(buffer, start, end, BELOW, CCC22);
    move_marks(buffer, behind, end, ABOVE, CCC26);
}

/// Puts the first modifier combining marks of a class before the marks from `start` on, with another
/// class. Where the marks behind them begin.
///
/// # Requires
///
/// - `closed: buffer.old.have_output ≡ false`
/// - `order: start ≤ end`
/// - `within: end ≤ length buffer.old.input`
fn move_marks(
    buffer: &mut hb_buffer_t,
    start: usize,
    end: usize,
    class: u16,
    new_class: u8,
) -> usize {
    debug_assert!(!buffer.have_output());
    debug_assert!(start <= end);
    debug_assert!(end <= buffer.info().len());
    let first = modifiers_start(buffer.info(), start, end, class);
    let last = modifiers_end(buffer.info(), first, end, class);
    put_if_any(buffer, start, first, last, new_class);
    start + (last - first)
}

/// Puts the marks from `first` to `last` before those from `start` on, with another class, if there are
/// any.
///
/// # Requires
///
/// - `closed: buffer.old.have_output ≡ false`
/// - `order: start ≤ first`
/// - `within: last ≤ length buffer.old.input`
fn put_if_any(buffer: &mut hb_buffer_t, start: usize, first: usize, last: usize, class: u8) {
    debug_assert!(!buffer.have_output());
    debug_assert!(start <= first);
    debug_assert!(last <= buffer.info().len());
    if first < last {
        put_first(buffer, start, first, last, class);
    }
}

/// Puts the marks from `first` to `last` before those from `start` on, in one cluster, with another
/// class.
///
/// # Requires
///
/// - `closed: buffer.old.have_output ≡ false`
/// - `order: start ≤ first`
/// - `ends: first ≤ last`
/// - `within: last ≤ length buffer.old.input`
fn put_first(buffer: &mut hb_buffer_t, start: usize, first: usize, last: usize, class: u8) {
    debug_assert!(!buffer.have_output());
    debug_assert!(start <= first);
    debug_assert!(first <= last);
    debug_assert!(last <= buffer.info().len());
    merge(buffer, start, last);
    move_back(buffer, start, first, last);
    set_classes(buffer, start, start + (last - first), class);
}

/// Where the first marks of a class begin, of those from `start` to `end`, which are in the order of
/// their classes.
///
/// # Requires
///
/// - `order: start ≤ end`
/// - `within: end ≤ length infos.now`
fn modifiers_start(infos: &[hb_glyph_info_t], start: usize, end: usize, class: u16) -> usize {
    debug_assert!(start <= end);
    debug_assert!(end <= infos.len());
    let mut place = start;
    while place < end && is_below(&infos[place], class) {
        place += 1;
    }
    place
}

/// Where the modifier combining marks of a class end that begin at `start`.
///
/// # Requires
///
/// - `order: start ≤ end`
/// - `within: end ≤ length infos.now`
fn modifiers_end(infos: &[hb_glyph_info_t], start: usize, end: usize, class: u16) -> usize {
    debug_assert!(start <= end);
    debug_assert!(end <= infos.len());
    let mut place = start;
    while place < end && is_modifier_of(&infos[place], class) {
        place += 1;
    }
    place
}

/// Whether the mark comes before those of a class.
fn is_below(mark: &hb_glyph_info_t, class: u16) -> bool {
    modified_combining_class(mark) < class
}

/// Whether the mark is a modifier combining mark of a class.
fn is_modifier_of(mark: &hb_glyph_info_t, class: u16) -> bool {
    modified_combining_class(mark) == class && is_modifier_mark(mark.glyph_id)
}

/// Gives the marks from `start` to `end` another class.
///
/// # Requires
///
/// - `closed: buffer.old.have_output ≡ false`
/// - `order: start ≤ end`
/// - `within: end ≤ length buffer.old.input`
fn set_classes(buffer: &mut hb_buffer_t, start: usize, end: usize, class: u8) {
    debug_assert!(!buffer.have_output());
    debug_assert!(start <= end);
    debug_assert!(end <= buffer.info().len());
    set_classes_of(buffer.info_slice_mut(), start, end, class);
}

/// Gives these of the marks another class.
///
/// # Requires
///
/// - `order: start ≤ end`
/// - `within: end ≤ length infos.old`
fn set_classes_of(infos: &mut [hb_glyph_info_t], start: usize, end: usize, class: u8) {
    debug_assert!(start <= end);
    debug_assert!(end <= infos.len());
    set_class_of_all(&mut infos[start..end], class);
}

/// Gives each mark another class.
fn set_class_of_all(marks: &mut [hb_glyph_info_t], class: u8) {
    for mark in marks.iter_mut() {
        set_modified_combining_class(mark, u16::from(class));
    }
}

/// Whether the character is a modifier combining mark.
fn is_modifier_mark(character: u32) -> bool {
    matches!(
        character,
        0x654 | 0x655 | 0x658 | 0x6DC | 0x6E3 | 0x6E7 | 0x6E8 | 0x8CA | 0x8CB | 0x8CD
            ..=0x8CF | 0x8D3 | 0x8F3
    )
}
