// Written by tools/plain_rust from crates/ot_kern. Do not edit.

//! Kerning by the table `kern` (HarfBuzz, `hb_ot_layout_kern`, `hb_kern_machine_t`).

use crate::buffer::hb_buffer_t;
use crate::common::Direction;
use crate::font_tables::coverage::Coverage;
use crate::font_tables::scale::Scale;
use crate::glyph::GlyphPosition;
use crate::ot_attachments::chains::ATTACH_TYPE_CURSIVE;
use crate::ot_attachments::flags::{mark_attached, mark_break, mark_concat};
use crate::ot_gpos_tables::kern_table::{KernCoverage, KernSubtable, KernTable};
use crate::ot_kern::kern_pairs::{KernMachine, KernPair, in_line, pair_of, passes_over_pair};
use crate::ot_layout::skipping_iterator::{LookupOptions, SkippingIterator};
use crate::ot_lookups::lookup_props::LookupProps;

/// The bit of a lookup's flag that passes over marks.
const IGNORE_MARKS: u16 = 0x0008;

/// Moves pairs of glyphs by the subtables for lines of this direction, where the glyphs have one of the
/// options' bits.
///
/// # Requires
///
/// - `placed: HasPositions buffer.old`
///
/// # Proved
///
/// ```text
/// ensures is { buffer.new ≡ kerning.kerned table.now scale.now options.now buffer.old }
/// ensures kept { KeepsText buffer.old buffer.new }
/// ensures keeps { KeepsClusters buffer.old buffer.new }
/// ```
#[inline]
pub fn kern(buffer: &mut hb_buffer_t, table: &KernTable, scale: &Scale, options: &LookupOptions) {
    debug_assert!(!buffer.have_output() && buffer.have_positions());
    debug_assert!(buffer.out_len() == 0);
    kern_by_all(buffer, table, scale, options);
    debug_assert!(buffer.out_len() == 0);
}

/// Moves pairs of glyphs by each subtable.
///
/// # Requires
///
/// - `placed: HasPositions buffer.old`
fn kern_by_all(
    buffer: &mut hb_buffer_t,
    table: &KernTable,
    scale: &Scale,
    options: &LookupOptions,
) {
    debug_assert!(!buffer.have_output() && buffer.have_positions());
    mark_concat(buffer, 0, usize::MAX);
    let iterator = over_bases(options);
    let mut is_chained = false;
    let mut at = table.start();
    for number in 0..table.count {
        let Some(subtable) = subtable_of(table, at, number) else {
            return;
        };
        let direction = direction_of(buffer);
        let machine = KernMachine {
            subtable,
            iterator,
            scale: *scale,
            direction,
        };
        is_chained = apply(buffer, &machine, is_chained);
        at = at.saturating_add(subtable.length);
    }
}

/// The direction of the line.
fn direction_of(buffer: &hb_buffer_t) -> Direction {
    buffer.direction
}

/// The subtable that begins at a place, whose number is this one.
fn subtable_of<'a>(table: &KernTable<'a>, at: usize, number: u32) -> Option<KernSubtable<'a>> {
    table.subtable_at(at, number)
}

/// The iterator over the glyphs that are kerned: it passes over marks.
fn over_bases<'a>(options: &LookupOptions) -> SkippingIterator<'a> {
    let lookup_props = LookupProps {
        flags: IGNORE_MARKS,
        marks: Coverage::new(&[]),
    };
    SkippingIterator::over_input(lookup_props, options, true)
}

/// Moves pairs of glyphs by a subtable, if it is for lines of this direction. The first that moves
/// glyphs across the line joins all of them before. Says whether they are joined.
///
/// # Requires
///
/// - `placed: HasPositions buffer.old`
/// - `passes: PassesMarks machine.now.iterator`
fn apply(buffer: &mut hb_buffer_t, machine: &KernMachine, is_chained: bool) -> bool {
    debug_assert!(!buffer.have_output() && buffer.have_positions());
    if is_for(&machine.subtable.coverage, machine.direction) {
        chain(buffer, machine, is_chained);
        kern_by(buffer, machine);
        is_chained || machine.subtable.coverage.is_cross_stream
    } else {
        is_chained
    }
}

/// Whether a subtable is for lines of this direction.
fn is_for(coverage: &KernCoverage, direction: Direction) -> bool {
    if coverage.is_variation {
        false
    } else if direction.is_horizontal() {
        coverage.is_horizontal
    } else {
        !coverage.is_horizontal
    }
}

/// Joins all glyphs, if the subtable moves glyphs across the line and they are not joined yet.
///
/// # Requires
///
/// - `placed: HasPositions buffer.old`
fn chain(buffer: &mut hb_buffer_t, machine: &KernMachine, is_chained: bool) {
    debug_assert!(!buffer.have_output() && buffer.have_positions());
    if machine.subtable.coverage.is_cross_stream && !is_chained {
        let chain = chain_back(machine.direction);
        chain_all(buffer.pos_mut(), chain);
    }
}

/// The chain to the glyph before, in the order of the line.
fn chain_back(direction: Direction) -> i16 {
    if direction.is_forward() { -1 } else { 1 }
}

/// Joins each glyph to the one before it in the line: what moves one across the line moves all that
/// follow.
fn chain_all(positions: &mut [GlyphPosition], chain: i16) {
    for position in positions.iter_mut() {
        join(position, chain);
    }
}

/// Joins a glyph to another by this chain.
fn join(position: &mut GlyphPosition, chain: i16) {
    position.set_attach_type(ATTACH_TYPE_CURSIVE);
    position.set_attach_chain(chain);
}

/// Moves pairs of glyphs by a subtable, one after the other in the order of the line.
///
/// # Requires
///
/// - `placed: HasPositions buffer.old`
/// - `passes: PassesMarks machine.now.iterator`
fn kern_by(buffer: &mut hb_buffer_t, machine: &KernMachine) {
    debug_assert!(!buffer.have_output() && buffer.have_positions());
    let len = buffer.len();
    let mut turn = 0;
    let mut across = None;
    for _step in 0..len {
        if turn >= buffer.len() {
            mark_rest(buffer, machine.direction, across);
            return;
        }
        turn = kern_at(buffer, machine, turn, &mut across);
    }
    mark_rest(buffer, machine.direction, across);
}

/// Moves the pair of the glyph whose turn it is, and says whose turn it is then: that of its right
/// glyph, or of the next one where there is no pair.
///
/// # Requires
///
/// - `placed: HasPositions buffer.old`
/// - `passes: PassesMarks machine.now.iterator`
/// - `there: turn < length buffer.old.input`
fn kern_at(
    buffer: &mut hb_buffer_t,
    machine: &KernMachine,
    turn: usize,
    across: &mut Option<usize>,
) -> usize {
    debug_assert!(!buffer.have_output() && buffer.have_positions());
    debug_assert!(turn < buffer.info().len());
    let len = buffer.len();
    let left = in_line(machine.direction, len, turn);
    let Some(pair) = pair_of(buffer.info(), machine, left) else {
        return turn + 1;
    };
    try_pair(buffer, machine, &pair);
    *across = first_crossed(&pair, *across);
    in_line(machine.direction, len, pair.right)
}

/// The left glyph of the first pair that is moved across the line.
fn first_crossed(pair: &KernPair, across: Option<usize>) -> Option<usize> {
    match across {
        Some(place) => Some(place),
        None => {
            if pair.is_cross_stream && pair.value != 0 {
                Some(pair.left)
            } else {
                None
            }
        }
    }
}

/// Marks that no glyph from a place on, in the order of the line, may be parted from it: what is moved
/// across the line moves all that follow.
///
/// # Requires
///
/// - `placed: HasPositions buffer.old`
fn mark_rest(buffer: &mut hb_buffer_t, direction: Direction, across: Option<usize>) {
    debug_assert!(!buffer.have_output() && buffer.have_positions());
    match across {
        Some(left) => {
            if direction.is_forward() {
                mark_break(buffer, left, usize::MAX);
            } else {
                mark_break(buffer, 0, left.saturating_add(1));
            }
        }
        None => {}
    }
}

/// Moves a pair that has a value. What another passes over may not be parted, where it might be kerned.
///
/// # Requires
///
/// - `placed: HasPositions buffer.old`
/// - `left: pair.now.left < length buffer.old.input`
/// - `right: pair.now.right < length buffer.old.input`
fn try_pair(buffer: &mut hb_buffer_t, machine: &KernMachine, pair: &KernPair) {
    debug_assert!(!buffer.have_output() && buffer.have_positions());
    if pair.value == 0 {
        mark_unkerned(buffer, machine, pair);
    } else {
        kern_pair(buffer, machine, pair);
    }
}

/// Marks what a pair passes over, if one of these glyphs would be kerned with its right glyph.
///
/// # Requires
///
/// - `placed: HasPositions buffer.old`
/// - `left: pair.now.left < length buffer.old.input`
/// - `right: pair.now.right < length buffer.old.input`
fn mark_unkerned(buffer: &mut hb_buffer_t, machine: &KernMachine, pair: &KernPair) {
    debug_assert!(!buffer.have_output() && buffer.have_positions());
    if passes_over_pair(buffer.info(), machine, pair) {
        mark_passed(buffer, pair);
    }
}

/// Moves a pair, and marks that it may not be parted.
///
/// # Requires
///
/// - `placed: HasPositions buffer.old`
fn kern_pair(buffer: &mut hb_buffer_t, machine: &KernMachine, pair: &KernPair) {
    debug_assert!(!buffer.have_output() && buffer.have_positions());
    put(buffer, machine, pair);
    let (first, second) = (pair.left.min(pair.right), pair.left.max(pair.right));
    mark_break(buffer, first, second.saturating_add(1));
}

/// Moves a pair. A glyph that is moved across the line is attached to the one before it.
///
/// # Requires
///
/// - `placed: HasPositions buffer.old`
fn put(buffer: &mut hb_buffer_t, machine: &KernMachine, pair: &KernPair) {
    debug_assert!(!buffer.have_output() && buffer.have_positions());
    move_pair(buffer.pos_mut(), machine, pair);
    if pair.is_cross_stream {
        mark_attached(buffer);
    }
}

/// Marks what a pair passes over: if a line began there, it might be kerned with the right glyph.
///
/// # Requires
///
/// - `placed: HasPositions buffer.old`
fn mark_passed(buffer: &mut hb_buffer_t, pair: &KernPair) {
    debug_assert!(!buffer.have_output() && buffer.have_positions());
    if pair.left <= pair.right {
        mark_break(buffer, pair.left, pair.right);
    } else {
        mark_break(
            buffer,
            pair.right.saturating_add(1),
            pair.left.saturating_add(1),
        );
    }
}

/// Moves a pair along the line, or its right glyph across it.
fn move_pair(positions: &mut [GlyphPosition], machine: &KernMachine, pair: &KernPair) {
    let is_horizontal = machine.direction.is_horizontal();
    let value = scaled(machine, pair.value);
    if pair.is_cross_stream {
        cross_at(positions, pair.right, value, is_horizontal);
    } else {
        draw_together(positions, pair.left, pair.right, value, is_horizontal);
    }
}

/// A length along the line, at the font's size.
fn scaled(machine: &KernMachine, value: i32) -> i32 {
    if machine.direction.is_horizontal() {
        machine.scale.em_scale_x(value)
    } else {
        machine.scale.em_scale_y(value)
    }
}

/// Puts the glyph at a place so far across the line.
fn cross_at(positions: &mut [GlyphPosition], place: usize, value: i32, is_horizontal: bool) {
    if place < positions.len() {
        cross(&mut positions[place], value, is_horizontal);
    }
}

/// Moves a pair along the line: half of the value goes to the advance of the left glyph, and the rest
/// to that of the right one, which is moved by it.
fn draw_together(
    positions: &mut [GlyphPosition],
    left: usize,
    right: usize,
    value: i32,
    is_horizontal: bool,
) {
    let half = value >> 1;
    let rest = value.wrapping_sub(half);
    if left < positions.len() {
        advance(&mut positions[left], half, is_horizontal);
    }
    if right < positions.len() {
        let position = &mut positions[right];
        advance(position, rest, is_horizontal);
        shift(position, rest, is_horizontal);
    }
}

/// Puts a glyph so far across the line.
fn cross(position: &mut GlyphPosition, value: i32, is_horizontal: bool) {
    if is_horizontal {
        position.y_offset = value;
    } else {
        position.x_offset = value;
    }
}

/// Widens the advance of a glyph along the line.
fn advance(position: &mut GlyphPosition, length: i32, is_horizontal: bool) {
    if is_horizontal {
        position.x_advance = position.x_advance.wrapping_add(length);
    } else {
        position.y_advance = position.y_advance.wrapping_add(length);
    }
}

/// Moves a glyph along the line.
fn shift(position: &mut GlyphPosition, length: i32, is_horizontal: bool) {
    if is_horizontal {
        position.x_offset = position.x_offset.wrapping_add(length);
    } else {
        position.y_offset = position.y_offset.wrapping_add(length);
    }
}
