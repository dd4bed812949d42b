// Written by tools/plain_rust from crates/ot_gpos. Do not edit.

//! Single glyphs and pairs that are moved (HarfBuzz, `SinglePos`, `PairPos`).

use crate::buffer::hb_buffer_t;
use crate::glyph::{GlyphPosition, hb_glyph_info_t};
use crate::ot_attachments::flags::{mark_break, mark_concat};
use crate::ot_gpos::turn::Turn;
use crate::ot_gpos_tables::instance::Instance;
use crate::ot_gpos_tables::pairs::{
    PairValues, classed_advance, classed_pair, is_kerning, listed_advance, listed_pair,
    pair_formats, pair_set, single_values,
};
use crate::ot_gpos_tables::values::{ValueRecord, advanced};
use crate::ot_layout::matcher::{Matcher, class_of};
use crate::ot_layout::skipping_iterator::{Found, SkippingIterator};
use crate::ot_lookups::subtable_kind::{PairFormat, SubtableKind};

/// A pair that a subtable has records for.
#[derive(Clone, Copy, Debug)]
struct AdjustedPair {
    /// The place of its second glyph.
    second: usize,
    /// Its records.
    values: PairValues,
    /// Whether pairs have records for their second glyphs.
    uses_second: bool,
}

/// Moves the glyph, and says where the iterator goes on; `None` where the subtable is not for it.
///
/// # Requires
///
/// - `placed: HasPositions buffer.old`
pub(crate) fn place_single(buffer: &mut hb_buffer_t, turn: &Turn) -> Option<usize> {
    debug_assert!(!buffer.have_output() && buffer.have_positions());
    let values = single_values(turn.subtable.table, turn.index)?;
    let is_horizontal = buffer.direction.is_horizontal();
    let table = turn.subtable.table;
    move_at(
        buffer.pos_mut(),
        turn.place,
        &values,
        table,
        turn.instance,
        is_horizontal,
    );
    Some(turn.place.saturating_add(1))
}

/// Moves the glyph at a place.
fn move_at(
    positions: &mut [GlyphPosition],
    place: usize,
    values: &ValueRecord,
    base: &[u8],
    instance: &Instance<'_>,
    is_horizontal: bool,
) {
    if place < positions.len() {
        values.move_glyph(base, instance, is_horizontal, &mut positions[place]);
    }
}

/// Moves the glyph and the next one, and says where the iterator goes on; `None` where the subtable has
/// no such pair.
///
/// # Requires
///
/// - `placed: HasPositions buffer.old`
pub(crate) fn place_pair(buffer: &mut hb_buffer_t, turn: &Turn) -> Option<usize> {
    debug_assert!(!buffer.have_output() && buffer.have_positions());
    let len = buffer.len();
    if turn.place >= len {
        return None;
    }
    match next_shown(&turn.iterator, buffer.info(), turn.place) {
        Found::At(second) => place_with(buffer, turn, second),
        Found::Other(next) => {
            mark_concat(buffer, turn.place, next.saturating_add(1));
            None
        }
        Found::End => {
            mark_concat(buffer, turn.place, len);
            None
        }
    }
}

/// Moves the glyph and the one at a place after it.
///
/// # Requires
///
/// - `placed: HasPositions buffer.old`
/// - `first: turn.now.place < length buffer.old.input`
/// - `second: second < length buffer.old.input`
fn place_with(buffer: &mut hb_buffer_t, turn: &Turn, second: usize) -> Option<usize> {
    debug_assert!(!buffer.have_output() && buffer.have_positions());
    debug_assert!(second < buffer.info().len());
    let glyphs = glyphs_at(buffer.info(), turn.place, second);
    if buffer.direction.is_horizontal() && is_kerning(turn.subtable.table) {
        kern(buffer, turn, second, glyphs)
    } else {
        adjust(buffer, turn, second, glyphs)
    }
}

/// The glyphs at two places.
///
/// # Requires
///
/// - `first: first < length glyphs.now`
/// - `second: second < length glyphs.now`
#[inline(always)]
fn glyphs_at(glyphs: &[hb_glyph_info_t], first: usize, second: usize) -> (u32, u32) {
    debug_assert!(first < glyphs.len());
    debug_assert!(second < glyphs.len());
    (glyphs[first].glyph_id, glyphs[second].glyph_id)
}

/// Kerns the glyph with the one at a place, where the pair is of these glyphs.
///
/// # Requires
///
/// - `placed: HasPositions buffer.old`
/// - `horizontal: is_horizontal buffer.old.direction ≡ true`
/// - `kerns: is_kerning (pairs.table_of (visit_of turn.now)) ≡ true`
#[inline(always)]
fn kern(buffer: &mut hb_buffer_t, turn: &Turn, second: usize, glyphs: (u32, u32)) -> Option<usize> {
    debug_assert!(!buffer.have_output() && buffer.have_positions());
    match advance_of(turn, glyphs) {
        Some(advance) => {
            kern_pair(buffer, turn, second, advance);
            Some(second)
        }
        None => {
            mark_concat(buffer, turn.place, second.saturating_add(1));
            None
        }
    }
}

/// The advance of the pair of these glyphs, where pairs have nothing else.
///
/// # Requires
///
/// - `kerns: is_kerning (pairs.table_of (visit_of turn.now)) ≡ true`
#[inline(always)]
fn advance_of(turn: &Turn, glyphs: (u32, u32)) -> Option<i16> {
    let (first, second) = glyphs;
    match turn.subtable.kind {
        SubtableKind::PairAdjustment(PairFormat::Glyphs) => {
            let set = pair_set(turn.subtable.table, turn.index)?;
            if second > 0xFFFF {
                return None;
            }
            listed_advance(set, second as u16)
        }
        SubtableKind::PairAdjustment(PairFormat::Classes) => {
            let first = class_of(&turn.subtable.classes, first);
            classed_advance(
                turn.subtable.table,
                first,
                class_of(&turn.subtable.lookahead_classes, second),
            )
        }
        _ => None,
    }
}

/// Kerns the pair of the glyph and the one at a place.
///
/// # Requires
///
/// - `placed: HasPositions buffer.old`
/// - `horizontal: is_horizontal buffer.old.direction ≡ true`
/// - `kerns: is_kerning (pairs.table_of (visit_of turn.now)) ≡ true`
#[inline(always)]
fn kern_pair(buffer: &mut hb_buffer_t, turn: &Turn, second: usize, advance: i16) {
    debug_assert!(!buffer.have_output() && buffer.have_positions());
    let end = second.saturating_add(1);
    if advance != 0 {
        advance_at(buffer.pos_mut(), turn, second, advance);
        mark_break(buffer, turn.place, end);
    } else {
        mark_unmoved(buffer, turn, end);
    }
}

/// Marks a pair that is not moved, which ends before a place: another second glyph might be. A glyph
/// that it passes over might be moved, if the line began there.
///
/// # Requires
///
/// - `placed: HasPositions buffer.old`
fn mark_unmoved(buffer: &mut hb_buffer_t, turn: &Turn, end: usize) {
    debug_assert!(!buffer.have_output() && buffer.have_positions());
    mark_passed(buffer, turn, end);
    mark_concat(buffer, turn.place, end);
}

/// Marks what a pair passes over that is not moved, where one of these glyphs might be.
///
/// # Requires
///
/// - `placed: HasPositions buffer.old`
fn mark_passed(buffer: &mut hb_buffer_t, turn: &Turn, end: usize) {
    debug_assert!(!buffer.have_output() && buffer.have_positions());
    if passes_over_first(buffer.info(), turn, end) {
        mark_break(buffer, turn.place, end.saturating_sub(1));
    }
}

/// Whether the lookup may do something at a glyph within a pair, which ends before a place.
fn passes_over_first(glyphs: &[hb_glyph_info_t], turn: &Turn, end: usize) -> bool {
    let to = end.saturating_sub(1).min(glyphs.len());
    for place in turn.place.saturating_add(1)..to {
        if turn.lookup.is_for(turn.iterator.mask, &glyphs[place]) {
            return true;
        }
    }
    false
}

/// Moves the advance of the glyph, which is kerned with the one at a place.
///
/// # Requires
///
/// - `kerns: is_kerning (pairs.table_of (visit_of turn.now)) ≡ true`
#[inline(always)]
fn advance_at(positions: &mut [GlyphPosition], turn: &Turn, _second: usize, advance: i16) {
    if turn.place < positions.len() {
        positions[turn.place] = advanced(advance, turn.instance, positions[turn.place]);
    }
}

/// The next glyph that is not passed over, which most often is the one after.
///
/// # Requires
///
/// - `place < length glyphs.now`
#[inline(always)]
fn next_shown(iterator: &SkippingIterator, glyphs: &[hb_glyph_info_t], place: usize) -> Found {
    debug_assert!(place < glyphs.len());
    let behind = place + 1;
    if behind < glyphs.len()
        && !iterator.passes(&Matcher::Shown, &glyphs[behind])
        && iterator.matches(&Matcher::Shown, &glyphs[behind])
    {
        Found::At(behind)
    } else {
        iterator.next(&Matcher::Shown, glyphs, place)
    }
}

/// Moves the glyph and the one at a place, where the pair is of these glyphs.
///
/// # Requires
///
/// - `placed: HasPositions buffer.old`
#[inline(always)]
fn adjust(
    buffer: &mut hb_buffer_t,
    turn: &Turn,
    second: usize,
    glyphs: (u32, u32),
) -> Option<usize> {
    debug_assert!(!buffer.have_output() && buffer.have_positions());
    let end = second.saturating_add(1);
    match values_of(turn, glyphs) {
        Some(values) => {
            let uses_second = pair_formats(turn.subtable.table).1 != 0;
            let pair = AdjustedPair {
                second,
                values,
                uses_second,
            };
            move_pair(buffer, turn, &pair);
            Some(if uses_second { end } else { second })
        }
        None => {
            mark_concat(buffer, turn.place, end);
            None
        }
    }
}

/// The records of the pair of these glyphs.
#[inline(always)]
fn values_of(turn: &Turn, glyphs: (u32, u32)) -> Option<PairValues> {
    let (first, second) = glyphs;
    let table = turn.subtable.table;
    match turn.subtable.kind {
        SubtableKind::PairAdjustment(PairFormat::Glyphs) => {
            let set = pair_set(table, turn.index)?;
            if second > 0xFFFF {
                return None;
            }
            listed_pair(set, pair_formats(table), second as u16)
        }
        SubtableKind::PairAdjustment(PairFormat::Classes) => {
            let first = class_of(&turn.subtable.classes, first);
            classed_pair(
                table,
                first,
                class_of(&turn.subtable.lookahead_classes, second),
            )
        }
        _ => None,
    }
}

/// Moves the glyphs of a pair, and marks what may not be parted any more.
///
/// # Requires
///
/// - `placed: HasPositions buffer.old`
/// - `uses: pair.now.uses_second ≡ pairs.uses_second (visit_of turn.now)`
fn move_pair(buffer: &mut hb_buffer_t, turn: &Turn, pair: &AdjustedPair) {
    debug_assert!(!buffer.have_output() && buffer.have_positions());
    move_or_not(buffer, turn, pair);
    if pair.uses_second {
        mark_break(
            buffer,
            turn.place,
            pair.second.saturating_add(1).saturating_add(1),
        );
    }
}

/// Moves the glyphs of a pair, where its records may move them.
///
/// # Requires
///
/// - `placed: HasPositions buffer.old`
/// - `uses: pair.now.uses_second ≡ pairs.uses_second (visit_of turn.now)`
fn move_or_not(buffer: &mut hb_buffer_t, turn: &Turn, pair: &AdjustedPair) {
    debug_assert!(!buffer.have_output() && buffer.have_positions());
    let end = pair.second.saturating_add(1);
    let is_horizontal = buffer.direction.is_horizontal();
    if has_effect(turn, pair, is_horizontal) {
        move_both(buffer.pos_mut(), turn, pair, is_horizontal);
        mark_break(buffer, turn.place, end);
    } else {
        mark_unmoved(buffer, turn, end);
    }
}

/// Whether records may move a pair.
///
/// # Requires
///
/// - `uses: pair.now.uses_second ≡ pairs.uses_second (visit_of turn.now)`
fn has_effect(turn: &Turn, pair: &AdjustedPair, is_horizontal: bool) -> bool {
    pair.values.first.has_effect(turn.instance, is_horizontal)
        || pair.uses_second && pair.values.second.has_effect(turn.instance, is_horizontal)
}

/// From where the offsets of device tables are counted.
fn base_of<'a>(turn: &Turn<'a>) -> &'a [u8] {
    if turn.subtable.kind == SubtableKind::PairAdjustment(PairFormat::Classes) {
        turn.subtable.table
    } else {
        pair_set(turn.subtable.table, turn.index).unwrap_or(&[])
    }
}

/// Moves the glyphs of a pair.
fn move_both(
    positions: &mut [GlyphPosition],
    turn: &Turn,
    pair: &AdjustedPair,
    is_horizontal: bool,
) {
    let base = base_of(turn);
    move_at(
        positions,
        turn.place,
        &pair.values.first,
        base,
        turn.instance,
        is_horizontal,
    );
    if pair_formats(turn.subtable.table).1 != 0 {
        move_at(
            positions,
            pair.second,
            &pair.values.second,
            base,
            turn.instance,
            is_horizontal,
        );
    }
}
