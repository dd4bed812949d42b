// Written by tools/plain_rust from crates/ot_gpos. Do not edit.

//! A lookup of `GPOS` over a buffer: each glyph that it is for is tried with its subtables, one after the other (HarfBuzz,
//! `apply_forward`).

use crate::buffer::hb_buffer_t;
use crate::glyph::hb_glyph_info_t;
use crate::ot_attachments::flags::{mark_break, mark_concat};
use crate::ot_contexts::context::Fit;
use crate::ot_gpos::attachment::attach_mark;
use crate::ot_gpos::contexts::fit_at;
use crate::ot_gpos::cursive::place_cursive;
use crate::ot_gpos::marks::{LastBase, attachment_at};
use crate::ot_gpos::pairs::{place_pair, place_single};
use crate::ot_gpos::turn::{Setting, Turn};
use crate::ot_gpos_tables::contour_points::ContourPoints;
use crate::ot_layout::budget::{PASSED_A_STEP, SUBTABLE_STEPS};
use crate::ot_layout::search::{LookupContext, MatchPositions, Search};
use crate::ot_layout::skipping_iterator::LookupOptions;
use crate::ot_lookups::lookup_list::Lookup;
use crate::ot_lookups::lookup_props::covered_index;
use crate::ot_lookups::subtable::Subtable;
use crate::ot_lookups::subtable_kind::SubtableKind;
use core::mem;

/// How deep lookups may apply others (HarfBuzz, `HB_MAX_NESTING_LEVEL`).
const MAX_NESTING_LEVEL: u32 = 64;

/// A lookup at a glyph.
#[derive(Debug)]
struct Task<'a, 'l, P> {
    /// The font's lookups and its size.
    setting: &'a Setting<'a, P>,
    /// The lookup, and its iterators.
    applied: &'l LookupContext<'a>,
    /// How it is applied.
    options: &'a LookupOptions,
    /// The place of the glyph.
    place: usize,
    /// How many levels of lookups it may apply.
    depth: u32,
}

/// Positions the glyphs by the lookup of this index, where the buffer's glyphs have one of the options'
/// bits. A budget that is spent ends the iterator, and `buffer.shaping_failed` says so.
///
/// # Requires
///
/// - `closed: buffer.old.have_output ≡ false`
/// - `placed: IsSome buffer.old.positions`
///
/// # Proved
///
/// ```text
/// ensures closed { buffer.new.have_output ≡ false }
/// ensures placed { IsSome buffer.new.positions }
/// ensures rest { untouched buffer.new ≡ untouched buffer.old }
/// ensures flags { KeepsBits buffer.old.input buffer.new.input }
/// ensures spent { IsNotMore search.old.budget search.new.budget }
/// ensures says { search.new.budget.steps ≡ 0 → buffer.new.shaping_failed ≡ true }
/// ensures exact { let list = setting.now.list.now in
///     HasNoPixels setting.now.instance → 0 < search.new.budget.steps
///     → IsPositioned list (slice_get list.lookups.items lookup) options.now setting.now.instance
///     search.old.budget.nested buffer.old search.new.budget.nested buffer.new }
/// ensures keeps { KeepsClusters buffer.old buffer.new }
/// ```
#[inline]
pub fn position<P: ContourPoints>(
    buffer: &mut hb_buffer_t,
    setting: &Setting<P>,
    lookup: u16,
    options: &LookupOptions,
    search: &mut Search,
) {
    debug_assert!(!buffer.have_output());
    debug_assert!(buffer.have_positions());
    place_all(buffer, setting, lookup, options, search);
    fail_if_spent(buffer, search);
}

/// Positions the glyphs by the lookup of this index, one after the other.
///
/// # Requires
///
/// - `placed: HasPositions buffer.old`
fn place_all<'a, P: ContourPoints>(
    buffer: &mut hb_buffer_t,
    setting: &'a Setting<'a, P>,
    index: u16,
    options: &'a LookupOptions,
    search: &mut Search,
) {
    debug_assert!(!buffer.have_output() && buffer.have_positions());
    let Some(lookup) = setting.list.lookup(index) else {
        return;
    };
    search.budget.pay_for(1 + buffer.len() / PASSED_A_STEP);
    let applied = LookupContext::new(lookup, options, true);
    let mut last = LastBase::none();
    let mut next = 0;
    for _turn in 0..buffer.len() {
        let place = next_place(buffer.info(), lookup, options.mask, next);
        if place == buffer.len() || search.budget.is_spent() {
            return;
        }
        let task = Task {
            setting,
            applied: &applied,
            options,
            place,
            depth: MAX_NESTING_LEVEL,
        };
        next = place_by_lookup(buffer, &task, search, &mut last)
            .unwrap_or(0)
            .max(place + 1);
    }
}

/// The first place from this one on at which the lookup may do something, or the number of glyphs.
fn next_place(glyphs: &[hb_glyph_info_t], lookup: &Lookup, mask: u32, from: usize) -> usize {
    lookup.first_place(mask, glyphs, from.min(glyphs.len()))
}

/// Positions the glyph by the first subtable that does, and says where the iterator goes on.
///
/// # Requires
///
/// - `placed: HasPositions buffer.old`
fn place_by_lookup<'a, 'l, P: ContourPoints>(
    buffer: &mut hb_buffer_t,
    task: &Task<'a, 'l, P>,
    search: &mut Search,
    last: &mut LastBase,
) -> Option<usize> {
    debug_assert!(!buffer.have_output() && buffer.have_positions());
    if task.place >= buffer.len() {
        return None;
    }
    let glyph = buffer.info()[task.place].glyph_id;
    let subtables = task.setting.list.subtables_of(task.applied.lookup);
    search.budget.pay_for(subtables.len() / PASSED_A_STEP);
    for subtable in subtables {
        let next = try_subtable(buffer, task, subtable, glyph, search, last);
        if next.is_some() {
            return next;
        }
    }
    None
}

/// Positions the glyph of this number by a subtable, if it covers the glyph, and says where the
/// iterator goes on.
///
/// # Requires
///
/// - `placed: HasPositions buffer.old`
/// - `within: task.now.place < length buffer.old.input`
/// - `next: IsNextOf task.now.setting.now.list.now.coverages.items subtable.now`
fn try_subtable<'a, 'l, P: ContourPoints>(
    buffer: &mut hb_buffer_t,
    task: &Task<'a, 'l, P>,
    subtable: &'a Subtable<'a>,
    glyph: u32,
    search: &mut Search,
    last: &mut LastBase,
) -> Option<usize> {
    debug_assert!(!buffer.have_output() && buffer.have_positions());
    if !subtable.may_be_for(glyph) {
        return None;
    }
    if !search.budget.pay(SUBTABLE_STEPS) {
        return None;
    }
    let index = index_in(subtable, glyph)?;
    let turn = Turn {
        lookup: task.applied.lookup,
        subtable,
        iterator: task.applied.iterator,
        instance: &task.setting.instance,
        place: task.place,
        index,
    };
    place_by_subtable(buffer, task, &turn, search, last)
}

/// The coverage index of a glyph in a subtable.
#[inline(never)]
fn index_in(subtable: &Subtable, glyph: u32) -> Option<u32> {
    covered_index(&subtable.coverage, glyph)
}

/// Positions the glyph by a subtable that is for it, and says where the iterator goes on; `None` where
/// the subtable does not fit.
///
/// # Requires
///
/// - `placed: HasPositions buffer.old`
/// - `within: turn.now.place < length buffer.old.input`
/// - `place: turn.now.place ≡ task.now.place`
/// - `next: IsNextOf task.now.setting.now.list.now.coverages.items turn.now.subtable.now`
#[inline(never)]
fn place_by_subtable<'a, 'l, P: ContourPoints>(
    buffer: &mut hb_buffer_t,
    task: &Task<'a, 'l, P>,
    turn: &Turn<'a>,
    search: &mut Search,
    last: &mut LastBase,
) -> Option<usize> {
    debug_assert!(!buffer.have_output() && buffer.have_positions());
    if turn.subtable.kind.as_context().is_some() {
        place_by_context(buffer, task, turn, search, last)
    } else {
        place_by_simple(buffer, turn, last, task.setting.points)
    }
}

/// Positions the glyph by a subtable that is no context.
///
/// # Requires
///
/// - `placed: HasPositions buffer.old`
fn place_by_simple<P: ContourPoints>(
    buffer: &mut hb_buffer_t,
    turn: &Turn,
    last: &mut LastBase,
    points: &P,
) -> Option<usize> {
    debug_assert!(!buffer.have_output() && buffer.have_positions());
    match turn.subtable.kind {
        SubtableKind::SingleAdjustment => place_single(buffer, turn),
        SubtableKind::PairAdjustment(_) => place_pair(buffer, turn),
        SubtableKind::CursiveAttachment => place_cursive(buffer, turn, points),
        _ => {
            let found = attachment_at(buffer.info(), turn, last, points);
            attach_mark(buffer, turn.place, &found)
        }
    }
}

/// Applies the lookups of the rule that fits at the glyph, and says where the iterator goes on.
///
/// # Requires
///
/// - `placed: HasPositions buffer.old`
/// - `within: context.now.place < length buffer.old.input`
/// - `place: context.now.place ≡ task.now.place`
/// - `next: IsNextOf task.now.setting.now.list.now.coverages.items context.now.subtable.now`
fn place_by_context<'a, 'l, P: ContourPoints>(
    buffer: &mut hb_buffer_t,
    task: &Task<'a, 'l, P>,
    context: &Turn<'a>,
    search: &mut Search,
    last: &mut LastBase,
) -> Option<usize> {
    debug_assert!(!buffer.have_output() && buffer.have_positions());
    let around = &task.applied.context;
    let fit = fit_at(buffer.info(), task.setting.list, context, around, search);
    let reached = context.place.saturating_add(search.reach.to);
    mark_concat(buffer, search.reach.from, reached);
    let fit = fit?;
    mark_break(buffer, fit.from, context.place.saturating_add(fit.to));
    let places = mem::replace(&mut search.places, MatchPositions::new());
    apply_records(buffer, task, &fit, &places, search, last);
    let end = context.place.saturating_add(fit.end);
    mark_concat(buffer, end, context.place.saturating_add(fit.beyond));
    Some(end)
}

/// Applies the lookups of a rule at the glyphs that it names, whose places are counted from the rule's
/// first glyph.
///
/// # Requires
///
/// - `placed: HasPositions buffer.old`
fn apply_records<'a, 'l, P: ContourPoints>(
    buffer: &mut hb_buffer_t,
    task: &Task<'a, 'l, P>,
    fit: &Fit<'a>,
    places: &MatchPositions,
    search: &mut Search,
    last: &mut LastBase,
) {
    debug_assert!(!buffer.have_output() && buffer.have_positions());
    for index in 0..usize::from(fit.record_count) {
        if let Some((lookup, place)) = nested_lookup(task, fit, places, index) {
            if task.depth == 0 || !search.budget.nest() {
                fail(buffer);
                return;
            }
            let applied = LookupContext::new(lookup, task.options, true);
            let nested = Task {
                setting: task.setting,
                applied: &applied,
                options: task.options,
                place,
                depth: task.depth - 1,
            };
            let _next = place_by_lookup(buffer, &nested, search, last);
        }
    }
}

/// The lookup of a record, and the place of the glyph that the record names; `None` where there is no
/// such lookup or glyph.
///
/// # Requires
///
/// - `index < 65536`
fn nested_lookup<'a, 'l, P>(
    task: &Task<'a, 'l, P>,
    fit: &Fit,
    places: &MatchPositions,
    index: usize,
) -> Option<(&'a Lookup<'a>, usize)> {
    debug_assert!(index < 65536);
    let record = fit.record(index)?;
    let at = *places.as_slice().get(record.sequence_index)?;
    let lookup = task.setting.list.lookup(record.lookup)?;
    Some((lookup, task.place.saturating_add(at)))
}

/// Says that shaping was given up where the budget is spent.
///
/// # Requires
///
/// - `placed: HasPositions buffer.old`
fn fail_if_spent(buffer: &mut hb_buffer_t, search: &Search) {
    debug_assert!(!buffer.have_output() && buffer.have_positions());
    if search.budget.is_spent() {
        fail(buffer);
    }
}

/// Says that the text could not be shaped as the font asks.
///
/// # Requires
///
/// - `placed: HasPositions buffer.old`
fn fail(buffer: &mut hb_buffer_t) {
    debug_assert!(!buffer.have_output() && buffer.have_positions());
    buffer.shaping_failed = true;
}
