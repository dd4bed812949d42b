// Written by tools/plain_rust from crates/ot_kern. Do not edit.

//! Which glyphs of a line the table `kern` has as pairs.

use crate::common::Direction;
use crate::font_tables::scale::Scale;
use crate::glyph::hb_glyph_info_t;
use crate::ot_gpos_tables::kern_table::KernSubtable;
use crate::ot_layout::matcher::Matcher;
use crate::ot_layout::skipping_iterator::{Found, SkippingIterator};

/// A subtable as it is applied to a line.
#[derive(Clone, Copy, Debug)]
pub(crate) struct KernMachine<'a> {
    /// The subtable.
    pub subtable: KernSubtable<'a>,
    /// The iterator over the glyphs that are not passed over.
    pub iterator: SkippingIterator<'a>,
    /// The size of the font.
    pub scale: Scale,
    /// The direction of the line.
    pub direction: Direction,
}

/// A pair of glyphs in the order in which a line shows them.
#[derive(Clone, Copy, Debug)]
pub(crate) struct KernPair {
    /// The place of the left or upper glyph.
    pub left: usize,
    /// The place of the right or lower one.
    pub right: usize,
    /// How far the right glyph is moved from the left one.
    pub value: i32,
    /// Whether it is moved across the line.
    pub is_cross_stream: bool,
}

/// The place of a number in the order of the line, and the number of a place: lines that run backward
/// begin at the end.
///
/// # Requires
///
/// - `number < count`
pub(crate) fn in_line(direction: Direction, count: usize, number: usize) -> usize {
    debug_assert!(number < count);
    if direction.is_forward() {
        number
    } else {
        count - 1 - number
    }
}

/// The pair of the glyph at a place and the next one in the line that is not passed over; `None` where
/// there is none, or the glyph has not the bits that are asked for.
///
/// # Requires
///
/// - `passes: PassesMarks machine.now.iterator`
/// - `there: left < length glyphs.now`
#[inline(always)]
pub(crate) fn pair_of(
    glyphs: &[hb_glyph_info_t],
    machine: &KernMachine,
    left: usize,
) -> Option<KernPair> {
    if glyphs[left].mask & machine.iterator.mask == 0 {
        return None;
    }
    let right = neighbour(glyphs, machine, left)?;
    Some(KernPair {
        left,
        right,
        value: i32::from(value_of(&machine.subtable, &glyphs[left], &glyphs[right])),
        is_cross_stream: machine.subtable.coverage.is_cross_stream,
    })
}

/// The next glyph in the line.
///
/// # Requires
///
/// - `passes: PassesMarks machine.now.iterator`
/// - `there: left < length glyphs.now`
fn neighbour(glyphs: &[hb_glyph_info_t], machine: &KernMachine, left: usize) -> Option<usize> {
    if machine.direction.is_forward() {
        next_forward(glyphs, machine, left)
    } else {
        next_backward(glyphs, machine, left)
    }
}

/// The next glyph behind a place.
///
/// # Requires
///
/// - `passes: PassesMarks machine.now.iterator`
/// - `there: left < length glyphs.now`
fn next_forward(glyphs: &[hb_glyph_info_t], machine: &KernMachine, left: usize) -> Option<usize> {
    match machine.iterator.next(&Matcher::Shown, glyphs, left) {
        Found::At(right) => Some(right),
        Found::Other(_) => None,
        Found::End => None,
    }
}

/// The last glyph before a place.
///
/// # Requires
///
/// - `passes: PassesMarks machine.now.iterator`
/// - `there: left < length glyphs.now`
fn next_backward(glyphs: &[hb_glyph_info_t], machine: &KernMachine, left: usize) -> Option<usize> {
    match machine.iterator.previous(&Matcher::Shown, glyphs, left) {
        Found::At(right) => Some(right),
        Found::Other(_) => None,
        Found::End => None,
    }
}

/// Whether one of the glyphs between those of a pair would be kerned with its right glyph, if the line
/// began there.
///
/// # Requires
///
/// - `left: pair.now.left < length glyphs.now`
/// - `right: pair.now.right < length glyphs.now`
#[inline(always)]
pub(crate) fn passes_over_pair(
    glyphs: &[hb_glyph_info_t],
    machine: &KernMachine,
    pair: &KernPair,
) -> bool {
    let to = pair.left.max(pair.right);
    for place in pair.left.min(pair.right).saturating_add(1)..to {
        if would_kern(glyphs, machine, place, pair.right) {
            return true;
        }
    }
    false
}

/// Whether the glyphs at two places would be a pair with a value.
///
/// # Requires
///
/// - `left: left < length glyphs.now`
/// - `right: right < length glyphs.now`
fn would_kern(
    glyphs: &[hb_glyph_info_t],
    machine: &KernMachine,
    left: usize,
    right: usize,
) -> bool {
    debug_assert!(right < glyphs.len());
    glyphs[left].mask & machine.iterator.mask != 0
        && value_of(&machine.subtable, &glyphs[left], &glyphs[right]) != 0
}

/// The value of two glyphs, in font units.
fn value_of(subtable: &KernSubtable, left: &hb_glyph_info_t, right: &hb_glyph_info_t) -> i16 {
    let (left, right) = (left.glyph_id, right.glyph_id);
    if left < 65536 && right < 65536 {
        subtable.kerning(left as u16, right as u16)
    } else {
        0
    }
}
