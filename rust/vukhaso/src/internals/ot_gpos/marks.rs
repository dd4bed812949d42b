// Written by tools/plain_rust from crates/ot_gpos. Do not edit.

//! Marks on bases, on ligatures and on marks (HarfBuzz, `MarkBasePos`, `MarkLigPos`, `MarkMarkPos`).

use crate::font_tables::bytes::table_at_16;
use crate::glyph::{GlyphPropsFlags, hb_glyph_info_t};
use crate::ot_gpos::attachment::{AnchorRow, AttachmentFound, attachment_by};
use crate::ot_gpos::ligatures::{are_of_one_part, is_first_of_many, ligature_row};
use crate::ot_gpos::turn::Turn;
use crate::ot_gpos_tables::anchors::ligature_matrix;
use crate::ot_gpos_tables::contour_points::ContourPoints;
use crate::ot_layout::matcher::Matcher;
use crate::ot_layout::skipping_iterator::{Found, Skip, SkippingIterator};
use crate::ot_lookups::lookup_props::{LookupProps, covered_index};
use crate::ot_lookups::subtable_kind::SubtableKind;

/// The bits of a lookup's flag that pass over classes of glyphs.
const IGNORED_CLASSES: u16 = 0x000E;

/// The bit of a lookup's flag that passes over marks.
const IGNORE_MARKS: u16 = 0x0008;

/// The last base that was found, so that many marks after one base are not gone over again for each of them.
#[derive(Clone, Copy, Debug)]
pub(crate) struct LastBase {
    /// Its place.
    base: Option<usize>,
    /// Up to which place a base was looked for.
    until: usize,
}

impl LastBase {
    /// Nothing was looked for yet.
    pub(crate) fn none() -> Self {
        LastBase {
            base: None,
            until: 0,
        }
    }
}

/// Where a subtable attaches its mark: to the last base before it, to a component of the last ligature,
/// or to the mark before it.
pub(crate) fn attachment_at<P: ContourPoints>(
    glyphs: &[hb_glyph_info_t],
    turn: &Turn,
    last: &mut LastBase,
    points: &P,
) -> AttachmentFound {
    match turn.subtable.kind {
        SubtableKind::MarkToBase => base_of(glyphs, turn, last, points),
        SubtableKind::MarkToLigature => ligature_of(glyphs, turn, last, points),
        SubtableKind::MarkToMark => mark_of(glyphs, turn, points),
        _ => AttachmentFound::Nothing,
    }
}

/// The attachment to a base.
fn base_of<P: ContourPoints>(
    glyphs: &[hb_glyph_info_t],
    turn: &Turn,
    last: &mut LastBase,
    points: &P,
) -> AttachmentFound {
    find_base(glyphs, turn, last, true);
    attached_at(glyphs, turn, last.base, points)
}

/// The attachment to the base or the mark at a place, if there is one and the subtable has it.
fn attached_at<P: ContourPoints>(
    glyphs: &[hb_glyph_info_t],
    turn: &Turn,
    base: Option<usize>,
    points: &P,
) -> AttachmentFound {
    match base_index(glyphs, turn, base) {
        Ok((base, number)) => {
            let row = AnchorRow {
                matrix: bases_of(turn),
                number,
            };
            attachment_by(glyphs, turn, &row, base, points)
        }
        Err(from) => AttachmentFound::NoBase(from),
    }
}

/// The table of what marks are attached to: bases, ligatures or marks.
fn bases_of<'a>(turn: &Turn<'a>) -> &'a [u8] {
    table_at_16(turn.subtable.table, 10).unwrap_or(&[])
}

/// The attachment to a ligature.
fn ligature_of<P: ContourPoints>(
    glyphs: &[hb_glyph_info_t],
    turn: &Turn,
    last: &mut LastBase,
    points: &P,
) -> AttachmentFound {
    find_base(glyphs, turn, last, false);
    match base_index(glyphs, turn, last.base) {
        Ok((base, index)) => {
            let matrix = ligature_matrix(bases_of(turn), index).unwrap_or(&[]);
            match row_of(glyphs, matrix, base, turn.place) {
                Some(number) => {
                    let row = AnchorRow { matrix, number };
                    attachment_by(glyphs, turn, &row, base, points)
                }
                None => AttachmentFound::NoBase(base),
            }
        }
        Err(from) => AttachmentFound::NoBase(from),
    }
}

/// The row of a ligature's matrix for the mark at a place.
///
/// # Requires
///
/// - `ligature < length glyphs.now`
fn row_of(glyphs: &[hb_glyph_info_t], matrix: &[u8], ligature: usize, mark: usize) -> Option<u32> {
    debug_assert!(ligature < glyphs.len());
    if mark < glyphs.len() {
        ligature_row(matrix, &glyphs[ligature], &glyphs[mark])
    } else {
        None
    }
}

/// The attachment to a mark.
fn mark_of<P: ContourPoints>(
    glyphs: &[hb_glyph_info_t],
    turn: &Turn,
    points: &P,
) -> AttachmentFound {
    match mark_before(glyphs, turn) {
        Found::At(before) if is_fellow(glyphs, before, turn.place) => {
            attached_at(glyphs, turn, Some(before), points)
        }
        Found::At(before) => AttachmentFound::NoBase(before),
        Found::Other(before) => AttachmentFound::NoBase(before.saturating_sub(1)),
        Found::End => AttachmentFound::NoBase(0),
    }
}

/// The glyph before the mark, whatever its class.
fn mark_before(glyphs: &[hb_glyph_info_t], turn: &Turn) -> Found {
    if turn.place > glyphs.len() {
        return Found::End;
    }
    let lookup_props = turn.iterator.lookup_props;
    let iterator = SkippingIterator {
        lookup_props: LookupProps {
            flags: lookup_props.flags & !IGNORED_CLASSES,
            marks: lookup_props.marks,
        },
        ..turn.iterator
    };
    iterator.previous(&Matcher::Shown, glyphs, turn.place)
}

/// Whether the glyph at a place is a mark that belongs where the mark belongs.
fn is_fellow(glyphs: &[hb_glyph_info_t], before: usize, place: usize) -> bool {
    before < glyphs.len()
        && place < glyphs.len()
        && is_mark(&glyphs[before])
        && are_of_one_part(&glyphs[place], &glyphs[before])
}

/// Whether a glyph is a mark.
pub(crate) fn is_mark(glyph: &hb_glyph_info_t) -> bool {
    glyph.glyph_props() & GlyphPropsFlags::MARK.bits() != 0
}

/// The place of what a mark is attached to, and its coverage index; where there is none, the place from
/// which on the glyphs are unsafe to concatenate.
fn base_index(
    glyphs: &[hb_glyph_info_t],
    turn: &Turn,
    base: Option<usize>,
) -> Result<(usize, u32), usize> {
    let Some(place) = base else {
        return Err(0);
    };
    if place >= glyphs.len() {
        return Err(0);
    }
    match covered_index(&turn.subtable.bases, glyphs[place].glyph_id) {
        Some(index) => Ok((place, index)),
        None => Err(place),
    }
}

/// Looks for the last glyph before the mark that is no mark, after the place up to which one was looked
/// for. For bases the glyphs of a multiple substitution are passed over that are not its first, unless
/// the subtable has them.
fn find_base(glyphs: &[hb_glyph_info_t], turn: &Turn, last: &mut LastBase, is_for_bases: bool) {
    let before = remembered(turn, last);
    let iterator = SkippingIterator {
        lookup_props: LookupProps {
            flags: IGNORE_MARKS,
            marks: turn.iterator.lookup_props.marks,
        },
        ..turn.iterator
    };
    let found = last_place(glyphs, turn, &iterator, before.until, is_for_bases);
    *last = LastBase {
        base: found.or(before.base),
        until: turn.place,
    };
}

/// What is remembered of bases at the mark: nothing where one was looked for up to a place behind it.
fn remembered(turn: &Turn, last: &LastBase) -> LastBase {
    if turn.place < last.until {
        LastBase::none()
    } else {
        *last
    }
}

/// The last place from `from` up to the mark's at whose glyph a mark may be attached.
fn last_place(
    glyphs: &[hb_glyph_info_t],
    turn: &Turn,
    skipping: &SkippingIterator,
    from: usize,
    is_for_bases: bool,
) -> Option<usize> {
    let mut end = turn.place;
    for _turn in from..turn.place {
        if end == 0 {
            return None;
        }
        end -= 1;
        if is_taken(glyphs, end, turn, skipping, is_for_bases) {
            return Some(end);
        }
    }
    None
}

/// Whether a mark may be attached to the glyph at a place.
fn is_taken(
    glyphs: &[hb_glyph_info_t],
    place: usize,
    turn: &Turn,
    skipping: &SkippingIterator,
    is_for_bases: bool,
) -> bool {
    counts_at(glyphs, place, skipping)
        && (!is_for_bases
            || is_first_of_many(glyphs, place)
            || place < glyphs.len() && is_base(turn, &glyphs[place]))
}

/// Whether the subtable has a glyph that marks are attached to.
fn is_base(turn: &Turn, glyph: &hb_glyph_info_t) -> bool {
    covered_index(&turn.subtable.bases, glyph.glyph_id).is_some()
}

/// Whether the glyph at a place counts.
fn counts_at(glyphs: &[hb_glyph_info_t], place: usize, iterator: &SkippingIterator) -> bool {
    if place < glyphs.len() {
        counts(&glyphs[place], iterator)
    } else {
        false
    }
}

/// Whether a glyph counts.
fn counts(glyph: &hb_glyph_info_t, iterator: &SkippingIterator) -> bool {
    match iterator.skip(glyph) {
        Skip::No => iterator.is_within(glyph),
        Skip::Maybe | Skip::Yes => false,
    }
}
