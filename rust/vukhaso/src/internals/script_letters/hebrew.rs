// Written by tools/plain_rust from crates/script_letters. Do not edit.

//! Hebrew: letters with marks as one character, in fonts without positions of marks, and the order of marks.

use crate::buffer::{hb_buffer_t, hb_glyph_info_t};
use crate::glyph::modified_combining_class::{CCC10, CCC14, CCC17, CCC18, CCC22};
use crate::glyph::row_search::value_of_pair;
use crate::script_items::item::modified_combining_class;
use crate::script_items::moves::{merge, move_back};

/// The classes by which these marks are reordered.
const PATAH: u16 = CCC17 as u16;

const QAMATS: u16 = CCC18 as u16;

const SHEVA: u16 = CCC10 as u16;

const HIRIQ: u16 = CCC14 as u16;

const METEG: u16 = CCC22 as u16;

/// The class of other marks below.
const BELOW: u16 = 220;

/// Letters with a mark, and the character of both that is not composed by canonical composition (Unicode, the block Alphabetic
/// Presentation Forms).
static PRESENTATION_FORMS: [((char, char), char); 36] = [
    (('\u{5d0}', '\u{5b7}'), '\u{fb2e}'),
    (('\u{5d0}', '\u{5b8}'), '\u{fb2f}'),
    (('\u{5d0}', '\u{5bc}'), '\u{fb30}'),
    (('\u{5d1}', '\u{5bc}'), '\u{fb31}'),
    (('\u{5d1}', '\u{5bf}'), '\u{fb4c}'),
    (('\u{5d2}', '\u{5bc}'), '\u{fb32}'),
    (('\u{5d3}', '\u{5bc}'), '\u{fb33}'),
    (('\u{5d4}', '\u{5bc}'), '\u{fb34}'),
    (('\u{5d5}', '\u{5b9}'), '\u{fb4b}'),
    (('\u{5d5}', '\u{5bc}'), '\u{fb35}'),
    (('\u{5d6}', '\u{5bc}'), '\u{fb36}'),
    (('\u{5d8}', '\u{5bc}'), '\u{fb38}'),
    (('\u{5d9}', '\u{5b4}'), '\u{fb1d}'),
    (('\u{5d9}', '\u{5bc}'), '\u{fb39}'),
    (('\u{5da}', '\u{5bc}'), '\u{fb3a}'),
    (('\u{5db}', '\u{5bc}'), '\u{fb3b}'),
    (('\u{5db}', '\u{5bf}'), '\u{fb4d}'),
    (('\u{5dc}', '\u{5bc}'), '\u{fb3c}'),
    (('\u{5de}', '\u{5bc}'), '\u{fb3e}'),
    (('\u{5e0}', '\u{5bc}'), '\u{fb40}'),
    (('\u{5e1}', '\u{5bc}'), '\u{fb41}'),
    (('\u{5e3}', '\u{5bc}'), '\u{fb43}'),
    (('\u{5e4}', '\u{5bc}'), '\u{fb44}'),
    (('\u{5e4}', '\u{5bf}'), '\u{fb4e}'),
    (('\u{5e6}', '\u{5bc}'), '\u{fb46}'),
    (('\u{5e7}', '\u{5bc}'), '\u{fb47}'),
    (('\u{5e8}', '\u{5bc}'), '\u{fb48}'),
    (('\u{5e9}', '\u{5bc}'), '\u{fb49}'),
    (('\u{5e9}', '\u{5c1}'), '\u{fb2a}'),
    (('\u{5e9}', '\u{5c2}'), '\u{fb2b}'),
    (('\u{5ea}', '\u{5bc}'), '\u{fb4a}'),
    (('\u{5f2}', '\u{5b7}'), '\u{fb1f}'),
    (('\u{fb2a}', '\u{5bc}'), '\u{fb2c}'),
    (('\u{fb2b}', '\u{5bc}'), '\u{fb2d}'),
    (('\u{fb49}', '\u{5c1}'), '\u{fb2c}'),
    (('\u{fb49}', '\u{5c2}'), '\u{fb2d}'),
];

/// The character of a letter and a mark, where the font does not place marks: the forms that canonical
/// composition leaves out, which old fonts have.
///
/// # Proved
///
/// ```text
/// ensures { result ≡ composition_of a b presentation_forms }
/// ```
#[inline]
pub fn presentation_form(a: char, b: char) -> Option<char> {
    value_of_pair(&PRESENTATION_FORMS, a, b)
}

/// Puts a meteg, or another mark below, before a sheva or hiriq that stands behind a patah or qamats,
/// in the first such three marks.
///
/// # Requires
///
/// - `buffer.old.have_output ≡ false`
///
/// # Proved
///
/// ```text
/// ensures is { hebrew.IsReordered start end buffer.old buffer.new }
/// ensures stays { StaysClosed buffer.old buffer.new }
/// ```
#[inline]
pub fn reorder_marks(buffer: &mut hb_buffer_t, start: usize, end: usize) {
    debug_assert!(!buffer.have_output());
    let end = end.min(buffer.len());
    match misplaced_mark(buffer.info(), start, end) {
        Some(place) => move_mark(buffer, place),
        None => {}
    }
}

/// Swaps a mark with the one before it, in one cluster.
///
/// # Requires
///
/// - `closed: buffer.old.have_output ≡ false`
/// - `behind: 0 < place`
/// - `within: place < length buffer.old.input`
fn move_mark(buffer: &mut hb_buffer_t, place: usize) {
    debug_assert!(!buffer.have_output());
    debug_assert!(0 < place);
    debug_assert!(place < buffer.info().len());
    debug_assert!(place < buffer.len());
    merge(buffer, place - 1, place + 1);
    move_back(buffer, place - 1, place, place + 1);
}

/// The place of the first mark, of those from `start` to `end`, that belongs before the one in front of
/// it.
///
/// # Requires
///
/// - `end ≤ length infos.now`
fn misplaced_mark(infos: &[hb_glyph_info_t], start: usize, end: usize) -> Option<usize> {
    debug_assert!(end <= infos.len());
    for place in start.saturating_add(2)..end {
        if is_misplaced(&infos[place - 2], &infos[place - 1], &infos[place]) {
            return Some(place);
        }
    }
    None
}

/// Whether the last of three marks belongs before the second.
fn is_misplaced(vowel: &hb_glyph_info_t, point: &hb_glyph_info_t, below: &hb_glyph_info_t) -> bool {
    matches!(modified_combining_class(vowel), PATAH | QAMATS)
        && matches!(modified_combining_class(point), SHEVA | HIRIQ)
        && matches!(modified_combining_class(below), METEG | BELOW)
}
