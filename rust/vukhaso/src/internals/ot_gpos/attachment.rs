// Written by tools/plain_rust from crates/ot_gpos. Do not edit.

//! Marks that are attached to a base, a ligature or another mark: the step that all three have in common (HarfBuzz, `MarkArray`).

use crate::buffer::hb_buffer_t;
use crate::font_tables::bytes::{table_at_16, u16_at};
use crate::font_tables::scale::Scale;
use crate::glyph::{GlyphPosition, hb_glyph_info_t};
use crate::ot_attachments::chains::{ATTACH_TYPE_MARK, attach};
use crate::ot_attachments::flags::{mark_attached, mark_break, mark_concat};
use crate::ot_gpos::turn::Turn;
use crate::ot_gpos_tables::anchors::{Anchor, anchor_in, mark_anchor, mark_class, named_point};
use crate::ot_gpos_tables::contour_points::ContourPoints;
use crate::ot_gpos_tables::instance::Instance;

/// What a subtable finds at a mark.
#[derive(Clone, Copy, Debug)]
pub(crate) enum AttachmentFound {
    /// It is not for the mark, or has no anchor for it.
    Nothing,
    /// It does not attach the mark to what stands from this place on.
    NoBase(usize),
    /// An attachment.
    Attached(Attachment),
}

/// An attachment of a mark.
#[derive(Clone, Copy, Debug)]
pub(crate) struct Attachment {
    /// The place of the glyph to which the mark is attached.
    base: usize,
    /// How far the mark is moved to the right from that glyph.
    x: i32,
    /// How far the mark is moved up from that glyph.
    y: i32,
}

/// A row of a matrix of anchors, which has a column for each class of marks.
#[derive(Clone, Copy, Debug)]
pub(crate) struct AnchorRow<'a> {
    /// The matrix.
    pub matrix: &'a [u8],
    /// The number of the row.
    pub number: u32,
}

/// The anchor of the glyph at a place in a table.
pub(crate) fn anchor_at<P: ContourPoints>(
    table: &[u8],
    instance: &Instance<'_>,
    glyphs: &[hb_glyph_info_t],
    place: usize,
    points: &P,
) -> Option<Anchor> {
    match named_point(table, &instance.scale) {
        Some(point) => {
            let known = match glyphs.get(place) {
                Some(glyph) => points.contour_point(glyph.glyph_id, point),
                None => None,
            };
            Anchor::read(table, instance, known)
        }
        None => Anchor::read(table, instance, None),
    }
}

/// The attachment of the mark to the glyph at a place, by the anchors of this row.
pub(crate) fn attachment_by<P: ContourPoints>(
    glyphs: &[hb_glyph_info_t],
    turn: &Turn,
    row: &AnchorRow<'_>,
    base: usize,
    points: &P,
) -> AttachmentFound {
    match anchor_for(glyphs, turn, row, base, points) {
        Some(anchor) => {
            AttachmentFound::Attached(attachment_to(glyphs, turn, &anchor, base, points))
        }
        None => AttachmentFound::Nothing,
    }
}

/// The array of the marks of a subtable.
fn marks_of<'a>(turn: &Turn<'a>) -> &'a [u8] {
    table_at_16(turn.subtable.table, 8).unwrap_or(&[])
}

/// The anchor of the glyph at a place, in this row and the column of the mark's class; `None` where the
/// row has none.
fn anchor_for<P: ContourPoints>(
    glyphs: &[hb_glyph_info_t],
    turn: &Turn,
    row: &AnchorRow<'_>,
    base: usize,
    points: &P,
) -> Option<Anchor> {
    let class_count = u16_at(turn.subtable.table, 6)?;
    let class = mark_class(marks_of(turn), turn.index);
    let table = anchor_in(row.matrix, row.number, class, class_count)?;
    anchor_at(table, turn.instance, glyphs, base, points)
}

/// The attachment of the mark to the glyph at a place with this anchor.
fn attachment_to<P: ContourPoints>(
    glyphs: &[hb_glyph_info_t],
    turn: &Turn,
    anchor: &Anchor,
    base: usize,
    points: &P,
) -> Attachment {
    let own = mark_anchor(marks_of(turn), turn.index);
    match anchor_at(own, turn.instance, glyphs, turn.place, points) {
        Some(own) => from_own(&turn.instance.scale, base, &own, anchor),
        None => Attachment {
            base,
            x: anchor.x_at(&turn.instance.scale),
            y: anchor.y_at(&turn.instance.scale),
        },
    }
}

/// The attachment of a mark to the glyph at a place, from its own anchor to that of the glyph.
fn from_own(scale: &Scale, base: usize, own: &Anchor, anchor: &Anchor) -> Attachment {
    Attachment {
        base,
        x: own.x_to(anchor, scale),
        y: own.y_to(anchor, scale),
    }
}

/// Attaches the mark, and says where the iterator goes on; `None` where the subtable does not attach
/// it.
///
/// # Requires
///
/// - `placed: HasPositions buffer.old`
pub(crate) fn attach_mark(
    buffer: &mut hb_buffer_t,
    place: usize,
    found: &AttachmentFound,
) -> Option<usize> {
    debug_assert!(!buffer.have_output() && buffer.have_positions());
    let end = place.saturating_add(1);
    match *found {
        AttachmentFound::Nothing => None,
        AttachmentFound::NoBase(from) => {
            mark_concat(buffer, from, end);
            None
        }
        AttachmentFound::Attached(attachment) => {
            mark_break(buffer, attachment.base, end);
            move_mark(buffer.pos_mut(), place, &attachment);
            mark_attached(buffer);
            Some(end)
        }
    }
}

/// Moves the mark at a place from where its base stands, and attaches it there.
fn move_mark(positions: &mut [GlyphPosition], place: usize, attachment: &Attachment) {
    if place < positions.len() {
        put_mark(&mut positions[place], place, attachment);
    }
}

/// Puts a mark at a place so far from its base.
fn put_mark(position: &mut GlyphPosition, place: usize, attachment: &Attachment) {
    position.x_offset = attachment.x;
    position.y_offset = attachment.y;
    attach(position, place, attachment.base, ATTACH_TYPE_MARK);
}
