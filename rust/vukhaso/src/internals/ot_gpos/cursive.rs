// Written by tools/plain_rust from crates/ot_gpos. Do not edit.

//! Glyphs that are joined to those before them, exit to entry (HarfBuzz, `CursivePos`).

use crate::buffer::hb_buffer_t;
use crate::common::Direction;
use crate::font_tables::bytes::{table_at_16, u16_at};
use crate::font_tables::scale::Scale;
use crate::glyph::{GlyphPosition, hb_glyph_info_t};
use crate::ot_attachments::chains::{ATTACH_TYPE_CURSIVE, attach, reverse_chain};
use crate::ot_attachments::flags::{mark_attached, mark_break, mark_concat};
use crate::ot_gpos::attachment::anchor_at;
use crate::ot_gpos::turn::Turn;
use crate::ot_gpos_tables::anchors::Anchor;
use crate::ot_gpos_tables::contour_points::ContourPoints;
use crate::ot_layout::matcher::Matcher;
use crate::ot_layout::skipping_iterator::Found;
use crate::ot_lookups::lookup_props::covered_index;

/// The bit of a lookup's flag by which the last glyph of a chain stays on the baseline, as in lines from right to left.
const RIGHT_TO_LEFT: u16 = 0x0001;

/// What a subtable finds at a glyph.
#[derive(Clone, Copy, Debug)]
enum JoinFound {
    /// The glyph has no entry.
    Nothing,
    /// Nothing before it, from this place on, has an exit.
    NoExit(usize),
    /// A join.
    Joined(Join),
}

/// A join of two glyphs.
#[derive(Clone, Copy, Debug)]
struct Join {
    /// The place of the glyph with the exit.
    before: usize,
    /// The place of the glyph with the entry.
    place: usize,
    /// The exit.
    exit: Anchor,
    /// The entry.
    entry: Anchor,
    /// Whether the glyph before hangs on this one, and else this one on that before.
    is_right_to_left: bool,
}

/// Joins the glyph to the one before it, and says where the iterator goes on; `None` where the subtable
/// does not join them.
///
/// # Requires
///
/// - `placed: HasPositions buffer.old`
pub(crate) fn place_cursive<P: ContourPoints>(
    buffer: &mut hb_buffer_t,
    turn: &Turn,
    points: &P,
) -> Option<usize> {
    debug_assert!(!buffer.have_output() && buffer.have_positions());
    let found = join_of(buffer.info(), turn, points);
    join_found(buffer, turn, &found)
}

/// Joins the glyph as the subtable finds it, and says where the iterator goes on.
///
/// # Requires
///
/// - `placed: HasPositions buffer.old`
fn join_found(buffer: &mut hb_buffer_t, turn: &Turn, found: &JoinFound) -> Option<usize> {
    debug_assert!(!buffer.have_output() && buffer.have_positions());
    let end = turn.place.saturating_add(1);
    let direction = buffer.direction;
    match *found {
        JoinFound::Nothing => None,
        JoinFound::NoExit(from) => {
            mark_concat(buffer, from, end);
            None
        }
        JoinFound::Joined(join) => {
            mark_break(buffer, join.before, end);
            join_glyphs(buffer.pos_mut(), &join, direction, &turn.instance.scale);
            mark_attached(buffer);
            Some(end)
        }
    }
}

/// The join of the glyph and the one before it that is not passed over.
fn join_of<P: ContourPoints>(glyphs: &[hb_glyph_info_t], turn: &Turn, points: &P) -> JoinFound {
    let Some(entry) = entry_of(glyphs, turn, points) else {
        return JoinFound::Nothing;
    };
    if turn.place > glyphs.len() {
        return JoinFound::Nothing;
    }
    match turn.iterator.previous(&Matcher::Shown, glyphs, turn.place) {
        Found::At(before) => match exit_of(glyphs, turn, before, points) {
            Some(exit) => JoinFound::Joined(Join {
                before,
                place: turn.place,
                exit,
                entry,
                is_right_to_left: turn.iterator.lookup_props.flags & RIGHT_TO_LEFT != 0,
            }),
            None => JoinFound::NoExit(before),
        },
        Found::Other(before) => JoinFound::NoExit(before.saturating_sub(1)),
        Found::End => JoinFound::NoExit(0),
    }
}

/// The entry of the glyph.
fn entry_of<P: ContourPoints>(
    glyphs: &[hb_glyph_info_t],
    turn: &Turn,
    points: &P,
) -> Option<Anchor> {
    let table = anchor_table(turn.subtable.table, turn.index, 6)?;
    anchor_at(table, turn.instance, glyphs, turn.place, points)
}

/// The exit of the glyph at a place.
fn exit_of<P: ContourPoints>(
    glyphs: &[hb_glyph_info_t],
    turn: &Turn,
    place: usize,
    points: &P,
) -> Option<Anchor> {
    if place >= glyphs.len() {
        return None;
    }
    let index = covered_index(&turn.subtable.coverage, glyphs[place].glyph_id)?;
    let table = anchor_table(turn.subtable.table, index, 8)?;
    anchor_at(table, turn.instance, glyphs, place, points)
}

/// The table of an anchor of a glyph, by the glyph's coverage index: the offsets of entries stand from
/// the byte 6 on, those of exits from the byte 8 on.
///
/// # Requires
///
/// - `at < 256`
fn anchor_table(table: &[u8], index: u32, at: usize) -> Option<&[u8]> {
    debug_assert!(at < 256);
    if index < u32::from(u16_at(table, 4).unwrap_or(0)) {
        table_at_16(table, at + 4 * index as usize)
    } else {
        None
    }
}

/// Joins two glyphs.
fn join_glyphs(positions: &mut [GlyphPosition], join: &Join, direction: Direction, scale: &Scale) {
    let len = positions.len();
    if join.before < len && join.place < len {
        meet_along(positions, join, direction, scale);
        meet_across(positions, join, direction, scale);
    }
}

/// Makes the exit and the entry meet along the line.
fn meet_along(positions: &mut [GlyphPosition], join: &Join, direction: Direction, scale: &Scale) {
    leave_at(positions, join.before, &join.exit, direction, scale);
    enter_at(positions, join.place, &join.entry, direction, scale);
}

/// Ends or begins the advance of the glyph at a place at its exit.
fn leave_at(
    positions: &mut [GlyphPosition],
    place: usize,
    exit: &Anchor,
    direction: Direction,
    scale: &Scale,
) {
    if place < positions.len() {
        leave(&mut positions[place], exit, direction, scale);
    }
}

/// Begins or ends the advance of the glyph at a place at its entry.
fn enter_at(
    positions: &mut [GlyphPosition],
    place: usize,
    entry: &Anchor,
    direction: Direction,
    scale: &Scale,
) {
    if place < positions.len() {
        enter(&mut positions[place], entry, direction, scale);
    }
}

/// Ends the advance of a glyph at its exit, or in lines that run backward begins it there.
fn leave(position: &mut GlyphPosition, exit: &Anchor, direction: Direction, scale: &Scale) {
    let x = exit.x_at(scale).wrapping_add(position.x_offset);
    let y = exit.y_at(scale).wrapping_add(position.y_offset);
    match direction {
        Direction::LeftToRight => position.x_advance = x,
        Direction::RightToLeft => take_x(position, x),
        Direction::TopToBottom => position.y_advance = y,
        Direction::BottomToTop => take_y(position, y),
        Direction::Invalid => {}
    }
}

/// Begins the advance of a glyph at its entry, or in lines that run backward ends it there.
fn enter(position: &mut GlyphPosition, entry: &Anchor, direction: Direction, scale: &Scale) {
    let x = entry.x_at(scale).wrapping_add(position.x_offset);
    let y = entry.y_at(scale).wrapping_add(position.y_offset);
    match direction {
        Direction::LeftToRight => take_x(position, x),
        Direction::RightToLeft => position.x_advance = x,
        Direction::TopToBottom => take_y(position, y),
        Direction::BottomToTop => position.y_advance = entry.y_at(scale),
        Direction::Invalid => {}
    }
}

/// Takes a length from the advance of a glyph, and moves the glyph back by it.
fn take_x(position: &mut GlyphPosition, length: i32) {
    position.x_advance = position.x_advance.wrapping_sub(length);
    position.x_offset = position.x_offset.wrapping_sub(length);
}

/// Takes a length from the advance of a glyph downwards, and moves the glyph back by it.
fn take_y(position: &mut GlyphPosition, length: i32) {
    position.y_advance = position.y_advance.wrapping_sub(length);
    position.y_offset = position.y_offset.wrapping_sub(length);
}

/// Makes the exit and the entry meet across the line: one glyph hangs on the other, which may hang on
/// others in turn.
fn meet_across(positions: &mut [GlyphPosition], join: &Join, direction: Direction, scale: &Scale) {
    let (x, y) = (x_from_parent(join, scale), y_from_parent(join, scale));
    if join.is_right_to_left {
        hang_on(positions, direction, join.before, join.place, x, y);
    } else {
        hang_on(positions, direction, join.place, join.before, x, y);
    }
}

/// How far to the right of its parent a child stands.
fn x_from_parent(join: &Join, scale: &Scale) -> i32 {
    let x = join.exit.x_to(&join.entry, scale);
    if join.is_right_to_left {
        x
    } else {
        x.wrapping_neg()
    }
}

/// How far above its parent a child stands.
fn y_from_parent(join: &Join, scale: &Scale) -> i32 {
    let y = join.exit.y_to(&join.entry, scale);
    if join.is_right_to_left {
        y
    } else {
        y.wrapping_neg()
    }
}

/// Attaches a child to its parent, so far from it across the line.
fn hang_on(
    positions: &mut [GlyphPosition],
    direction: Direction,
    child: usize,
    parent: usize,
    x: i32,
    y: i32,
) {
    reverse_chain(positions, child, direction.is_horizontal(), parent);
    if child < positions.len() {
        let chain = hang_at(positions, child, parent, direction, x, y);
        part_at(positions, parent, chain, direction);
    }
}

/// Attaches the glyph at a place to its parent, and says by which chain.
///
/// # Requires
///
/// - `place < length positions.old`
fn hang_at(
    positions: &mut [GlyphPosition],
    place: usize,
    parent: usize,
    direction: Direction,
    x: i32,
    y: i32,
) -> i16 {
    debug_assert!(place < positions.len());
    hang(&mut positions[place], direction, place, parent, x, y);
    positions[place].attach_chain()
}

/// Attaches a glyph to its parent.
fn hang(
    position: &mut GlyphPosition,
    direction: Direction,
    child: usize,
    parent: usize,
    x: i32,
    y: i32,
) {
    attach(position, child, parent, ATTACH_TYPE_CURSIVE);
    if direction.is_horizontal() {
        position.y_offset = y;
    } else {
        position.x_offset = x;
    }
}

/// Parts the glyph at a place from the one that now hangs on it by this chain.
fn part_at(positions: &mut [GlyphPosition], place: usize, chain: i16, direction: Direction) {
    if place < positions.len() {
        part_from(&mut positions[place], chain, direction);
    }
}

/// Parts a glyph from the one that now hangs on it by this chain.
fn part_from(position: &mut GlyphPosition, chain: i16, direction: Direction) {
    if position.attach_chain() != chain.wrapping_neg() {
        return;
    }
    position.set_attach_chain(0);
    if direction.is_horizontal() {
        position.y_offset = 0;
    } else {
        position.x_offset = 0;
    }
}
