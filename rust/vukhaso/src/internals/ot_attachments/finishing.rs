// Written by tools/plain_rust from crates/ot_attachments. Do not edit.

//! What stands before the lookups of `GPOS`, and after them (HarfBuzz, `GPOS::position_start`, `GPOS::position_finish_offsets`).

use crate::buffer::{HB_BUFFER_SCRATCH_FLAG_HAS_GPOS_ATTACHMENT, hb_buffer_t};
use crate::common::Direction;
use crate::glyph::GlyphPosition;
use crate::ot_attachments::chains::{ATTACH_TYPE_CURSIVE, cut, place_behind};

/// How many levels a chain may have (HarfBuzz, `HB_MAX_NESTING_LEVEL`).
const MAX_NESTING_LEVEL: u32 = 64;

/// Takes what glyphs are attached to from all positions.
///
/// # Requires
///
/// - `closed: buffer.old.have_output ≡ false`
/// - `placed: IsSome buffer.old.positions`
///
/// # Proved
///
/// ```text
/// ensures is { buffer.new ≡ on_positions (map detached) buffer.old }
/// ensures closed { buffer.new.have_output ≡ false }
/// ensures placed { IsSome buffer.new.positions }
/// ensures keeps { KeepsClusters buffer.old buffer.new }
/// ```
#[inline]
pub fn position_start(buffer: &mut hb_buffer_t) {
    debug_assert!(!buffer.have_output());
    debug_assert!(buffer.have_positions());
    detach_all(buffer.pos_mut());
}

/// Takes what glyphs are attached to from all positions.
fn detach_all(positions: &mut [GlyphPosition]) {
    for position in positions.iter_mut() {
        detach(position);
    }
}

/// Takes what a glyph is attached to.
fn detach(position: &mut GlyphPosition) {
    position.set_attach_chain(0);
    position.set_attach_type(0);
}

/// Moves each attached glyph to where the glyph stands that it is attached to: one that is joined gets
/// that glyph's offset across the line, and a mark its offset, less the advances that lie between. No
/// glyph is attached any more.
///
/// # Requires
///
/// - `closed: buffer.old.have_output ≡ false`
/// - `placed: IsSome buffer.old.positions`
///
/// # Proved
///
/// ```text
/// ensures is { buffer.new ≡ offsets_finished buffer.old }
/// ensures closed { buffer.new.have_output ≡ false }
/// ensures placed { IsSome buffer.new.positions }
/// ensures rest { untouched buffer.new ≡ untouched buffer.old }
/// ensures flags { KeepsBits buffer.old.input buffer.new.input }
/// ensures keeps { KeepsClusters buffer.old buffer.new }
/// ```
#[inline]
pub fn position_finish_offsets(buffer: &mut hb_buffer_t) {
    debug_assert!(!buffer.have_output());
    debug_assert!(buffer.have_positions());
    if buffer.scratch_flags & HB_BUFFER_SCRATCH_FLAG_HAS_GPOS_ATTACHMENT != 0 {
        let direction = buffer.direction;
        propagate_each(buffer.pos_mut(), direction);
    }
}

/// The advances from one place up to another, summed.
#[derive(Clone, Copy, Debug)]
struct Span {
    from: usize,
    to: usize,
    x: i32,
    y: i32,
}

/// Moves each attached glyph, one after the other.
fn propagate_each(positions: &mut [GlyphPosition], direction: Direction) {
    let len = positions.len();
    let mut span = Span {
        from: 0,
        to: 0,
        x: 0,
        y: 0,
    };
    for place in 0..len {
        propagate_attachment_offsets(positions, place, direction, MAX_NESTING_LEVEL, &mut span);
    }
}

/// Moves the glyph at a place to where its parent stands, which is moved first, and attaches it to
/// none. Where a chain has more levels, the rest stays where it is.
///
/// # Requires
///
/// - `there: place < length positions.old`
/// - `span: IsSummed positions.old span.old`
fn propagate_attachment_offsets(
    positions: &mut [GlyphPosition],
    place: usize,
    direction: Direction,
    levels: u32,
    span: &mut Span,
) {
    debug_assert!(place < positions.len());
    let kind = positions[place].attach_type();
    let parent = parent_of(positions, place);
    unchain(positions, place);
    if levels == 0 {
        return;
    }
    let Some(parent) = parent else {
        return;
    };
    propagate_attachment_offsets(positions, parent, direction, levels - 1, span);
    if kind & ATTACH_TYPE_CURSIVE != 0 {
        join(positions, place, parent, direction);
    } else {
        hang(positions, place, parent, direction, span);
    }
}

/// The place of the glyph to which the one at a place is attached; `None` where it is attached to none
/// of the glyphs.
///
/// # Requires
///
/// - `there: place < length positions.now`
fn parent_of(positions: &[GlyphPosition], place: usize) -> Option<usize> {
    debug_assert!(place < positions.len());
    let chain = positions[place].attach_chain();
    if chain == 0 {
        None
    } else {
        place_behind(place, chain, positions.len())
    }
}

/// Attaches the glyph at a place to none.
///
/// # Requires
///
/// - `there: place < length positions.old`
fn unchain(positions: &mut [GlyphPosition], place: usize) {
    debug_assert!(place < positions.len());
    if positions[place].attach_chain() != 0 {
        cut(positions, place);
    }
}

/// Moves a glyph as far across the line as the one to which it is joined.
///
/// # Requires
///
/// - `there: place < length positions.old`
/// - `parent: parent < length positions.old`
fn join(positions: &mut [GlyphPosition], place: usize, parent: usize, direction: Direction) {
    debug_assert!(place < positions.len());
    debug_assert!(parent < positions.len());
    let parent = positions[parent];
    join_to(&mut positions[place], &parent, direction);
}

/// Moves a glyph as far across the line as its parent.
fn join_to(position: &mut GlyphPosition, parent: &GlyphPosition, direction: Direction) {
    if direction.is_horizontal() {
        position.y_offset = position.y_offset.wrapping_add(parent.y_offset);
    } else {
        position.x_offset = position.x_offset.wrapping_add(parent.x_offset);
    }
}

/// Moves a mark to where the glyph stands on which it hangs.
///
/// # Requires
///
/// - `there: place < length positions.old`
/// - `parent: parent < length positions.old`
/// - `span: IsSummed positions.old span.old`
fn hang(
    positions: &mut [GlyphPosition],
    place: usize,
    parent: usize,
    direction: Direction,
    span: &mut Span,
) {
    debug_assert!(place < positions.len());
    debug_assert!(parent < positions.len());
    let (x, y) = if direction.is_forward() {
        sum_between(positions, span, parent, place)
    } else {
        sum_between(positions, span, parent + 1, place + 1)
    };
    let parent = positions[parent];
    hang_on(&mut positions[place], &parent, direction, x, y);
}

/// Moves a mark to where its parent stands, so far back in lines that run forward, else ahead.
fn hang_on(
    position: &mut GlyphPosition,
    parent: &GlyphPosition,
    direction: Direction,
    x: i32,
    y: i32,
) {
    position.x_offset = gone(
        direction,
        x,
        position.x_offset.wrapping_add(parent.x_offset),
    );
    position.y_offset = gone(
        direction,
        y,
        position.y_offset.wrapping_add(parent.y_offset),
    );
}

/// An offset, so far back in lines that run forward, else ahead.
fn gone(direction: Direction, far: i32, offset: i32) -> i32 {
    if direction.is_forward() {
        offset.wrapping_sub(far)
    } else {
        offset.wrapping_add(far)
    }
}

/// The sums of the advances from a place up to another. Many marks on one base widen the same span,
/// step by step.
///
/// # Requires
///
/// - `within: to ≤ length positions.now`
/// - `span: IsSummed positions.now span.old`
fn sum_between(positions: &[GlyphPosition], span: &mut Span, from: usize, to: usize) -> (i32, i32) {
    debug_assert!(to <= positions.len());
    if to <= from {
        return (0, 0);
    }
    if span.from != from || to < span.to {
        *span = Span {
            from,
            to: from,
            x: 0,
            y: 0,
        };
    }
    let (mut x, mut y) = (span.x, span.y);
    for place in span.to..to {
        x = x.wrapping_add(positions[place].x_advance);
        y = y.wrapping_add(positions[place].y_advance);
    }
    *span = Span { from, to, x, y };
    (x, y)
}
