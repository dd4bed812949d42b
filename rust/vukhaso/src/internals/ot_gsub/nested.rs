// Written by tools/plain_rust from crates/ot_gsub. Do not edit.

//! A lookup at the cursor, and the lookups that it applies.

use crate::buffer::hb_buffer_t;
use crate::memory::AllocError;
use crate::ot_contexts::context::{Fit, MAX_NESTING_LEVEL, SequenceLookupRecord};
use crate::ot_contexts::match_positions::Matched;
use crate::ot_gsub::ligation::ligate;
use crate::ot_gsub::multiplication::{choose, multiply, replace};
use crate::ot_gsub::substitution::{Progress, Substitutions};
use crate::ot_gsub::writing::{fail, glyph_ahead};
use crate::ot_layout::{ApplyContext, LookupContext, LookupOptions, Reach};
use crate::ot_substitution::substitution::{Edit, edit_at};

/// What became of a lookup at the cursor.
#[derive(Clone, Copy, PartialEq, Eq, Debug)]
pub(crate) enum Step {
    /// It was applied, and the cursor is after what it took.
    Applied,
    /// It does nothing there.
    Passed,
    /// The buffer refused a call for length.
    Refused,
}

impl Step {
    /// How many glyphs at the cursor the lookup is not tried at any more: the one at which it does nothing.
    /// `None` where it goes on nowhere.
    pub(crate) fn passed(self) -> Option<usize> {
        match self {
            Step::Applied => Some(0),
            Step::Passed => Some(1),
            Step::Refused => None,
        }
    }
}

/// Applies a lookup to the glyph at the cursor. Lookups may apply others, so many levels deep.
///
/// # Requires
///
/// - `opened: buffer.old.have_output ≡ true`
/// - `glyph: 0 < length buffer.old.input`
/// - `made: IsMadeFor substitutions.now.options false applied.now`
pub(crate) fn apply_at(
    buffer: &mut hb_buffer_t,
    substitutions: &Substitutions,
    applied: &LookupContext,
    progress: &mut Progress,
    depth: u32,
) -> Result<Step, AllocError> {
    debug_assert!(buffer.have_output());
    debug_assert!(!buffer.info().is_empty());
    let is_nested = depth < MAX_NESTING_LEVEL;
    let ctx = apply_context(buffer, substitutions, applied);
    progress.search.reach = Reach::none(ctx.out.len());
    let edit = edit_at(
        substitutions.list,
        applied.lookup,
        &substitutions.options,
        is_nested,
        &ctx,
        &mut progress.search,
    );
    mark_reach(buffer, &progress.search.reach);
    let Some(edit) = edit else {
        return Ok(Step::Passed);
    };
    let rest = rest_beyond(buffer, &edit);
    if !make(buffer, substitutions, &edit, progress, depth)? {
        return Ok(Step::Refused);
    }
    progress.has_changed = true;
    mark_beyond(buffer, rest);
    Ok(Step::Applied)
}

/// The glyphs on both sides of the cursor, and the iterators of a lookup.
///
/// # Requires
///
/// - `opened: buffer.now.have_output ≡ true`
/// - `glyph: 0 < length buffer.now.input`
/// - `made: IsMadeFor substitutions.now.options false applied.now`
fn apply_context<'a>(
    buffer: &'a hb_buffer_t,
    substitutions: &Substitutions,
    applied: &LookupContext<'a>,
) -> ApplyContext<'a> {
    debug_assert!(buffer.have_output());
    debug_assert!(!buffer.info().is_empty());
    ApplyContext {
        out: buffer.out_info(),
        input: buffer.info(),
        iterator: applied.iterator,
        context: applied.context,
        syllable: syllable_at(buffer, &substitutions.options),
        is_level: buffer.out_len() == buffer.idx(),
    }
}

/// The syllable of the current glyph where all glyphs of a match are of one syllable, or else 0.
///
/// # Requires
///
/// - `opened: buffer.now.have_output ≡ true`
/// - `glyph: 0 < length buffer.now.input`
fn syllable_at(buffer: &hb_buffer_t, options: &LookupOptions) -> u8 {
    debug_assert!(buffer.have_output());
    debug_assert!(!buffer.info().is_empty());
    if options.per_syllable {
        glyph_ahead(buffer, 0).syllable()
    } else {
        0
    }
}

/// Marks the glyphs that rules looked at which did not fit.
///
/// # Requires
///
/// - `buffer.old.have_output ≡ true`
fn mark_reach(buffer: &mut hb_buffer_t, reach: &Reach) {
    debug_assert!(buffer.have_output());
    if reach.to == 0 && reach.from >= buffer.out_len() {
        return;
    }
    let from = reach.from.min(buffer.out_len());
    let end = buffer.idx().saturating_add(reach.to);
    buffer.unsafe_to_concat_from_outbuffer(Some(from), Some(end));
}

/// How many glyphs are left beyond those that other rules would have looked at; none where all rules
/// were tried.
fn rest_beyond(buffer: &hb_buffer_t, edit: &Edit) -> usize {
    let beyond = match *edit {
        Edit::Ligate(ligation) => ligation.beyond,
        Edit::Apply(fit) => fit.beyond,
        _ => 0,
    };
    buffer.lookahead_len().saturating_sub(beyond)
}

/// Marks the glyphs from the cursor on that are not among so many at the end.
///
/// # Requires
///
/// - `buffer.old.have_output ≡ true`
fn mark_beyond(buffer: &mut hb_buffer_t, rest: usize) {
    debug_assert!(buffer.have_output());
    let left = buffer.lookahead_len();
    let len = buffer.len();
    if rest < left {
        let start = buffer.idx();
        buffer.unsafe_to_concat(Some(start), Some(len - rest));
    }
}

/// Makes an edit.
///
/// # Requires
///
/// - `opened: buffer.old.have_output ≡ true`
/// - `glyph: 0 < length buffer.old.input`
///
/// # Errors
///
/// `Ok(false)` where the buffer refused a call for length.
fn make(
    buffer: &mut hb_buffer_t,
    substitutions: &Substitutions,
    edit: &Edit,
    progress: &mut Progress,
    depth: u32,
) -> Result<bool, AllocError> {
    debug_assert!(buffer.have_output());
    debug_assert!(!buffer.info().is_empty());
    let gdef = substitutions.gdef;
    match *edit {
        Edit::Replace(glyph) => replace(buffer, gdef, glyph),
        Edit::Choose(set) => choose(buffer, gdef, &set, progress),
        Edit::Multiply(sequence) => multiply(buffer, gdef, &sequence),
        Edit::Ligate(ligation) => ligate(buffer, gdef, &ligation, &progress.search.places),
        Edit::Apply(fit) => apply_fit(buffer, substitutions, &fit, progress, depth),
        Edit::ReplaceInPlace(_) => Ok(true),
    }
}

/// Applies the lookups of a rule that fits at the cursor, and leaves the cursor after its input.
///
/// # Requires
///
/// - `opened: buffer.old.have_output ≡ true`
fn apply_fit(
    buffer: &mut hb_buffer_t,
    substitutions: &Substitutions,
    fit: &Fit,
    progress: &mut Progress,
    depth: u32,
) -> Result<bool, AllocError> {
    debug_assert!(buffer.have_output());
    mark_fit(buffer, fit);
    let out_len = buffer.out_len();
    let mut matched = Matched::new(&progress.search.places, fit.end, out_len);
    for index in 0..usize::from(fit.record_count) {
        let found = fit.record(index);
        let Some(lookup_record) = found else {
            break;
        };
        match apply_record(
            buffer,
            substitutions,
            &lookup_record,
            &mut matched,
            progress,
            depth,
        )? {
            Turn::On => {}
            Turn::Enough => break,
            Turn::Refused => return Ok(false),
        }
    }
    go_to(buffer, matched.end)
}

/// Marks the glyphs of a rule that fits, and those around it.
///
/// # Requires
///
/// - `buffer.old.have_output ≡ true`
fn mark_fit(buffer: &mut hb_buffer_t, fit: &Fit) {
    debug_assert!(buffer.have_output());
    mark_from(buffer, fit.from, fit.to);
}

/// Marks the glyphs from a place in what was put out up to so many from the cursor on as unsafe to
/// break.
///
/// # Requires
///
/// - `buffer.old.have_output ≡ true`
fn mark_from(buffer: &mut hb_buffer_t, from: usize, ahead: usize) {
    debug_assert!(buffer.have_output());
    let from = from.min(buffer.out_len());
    let end = buffer.idx().saturating_add(ahead);
    buffer.unsafe_to_break_from_outbuffer(Some(from), Some(end));
}

/// Moves the cursor to a place of both sides, or to their end.
///
/// # Requires
///
/// - `buffer.old.have_output ≡ true`
fn go_to(buffer: &mut hb_buffer_t, place: usize) -> Result<bool, AllocError> {
    debug_assert!(buffer.have_output());
    let count = both_len(buffer);
    buffer.move_to(place.min(count))
}

/// How many glyphs both sides have together.
///
/// # Requires
///
/// - `buffer.now.have_output ≡ true`
fn both_len(buffer: &hb_buffer_t) -> usize {
    debug_assert!(buffer.have_output());
    buffer.out_len().saturating_add(buffer.info().len())
}

/// What became of one of the lookups of a rule.
#[derive(Clone, Copy, PartialEq, Eq, Debug)]
enum Turn {
    /// The next one follows.
    On,
    /// No other one is applied.
    Enough,
    /// The buffer refused a call for length.
    Refused,
}

/// Applies the lookup of a record at its place, and lets the places of the match follow.
///
/// # Requires
///
/// - `buffer.old.have_output ≡ true`
fn apply_record(
    buffer: &mut hb_buffer_t,
    substitutions: &Substitutions,
    lookup_record: &SequenceLookupRecord,
    matched: &mut Matched,
    progress: &mut Progress,
    depth: u32,
) -> Result<Turn, AllocError> {
    debug_assert!(buffer.have_output());
    let before = both_len(buffer);
    if !progress.search.budget.pay(1) {
        return Ok(Turn::Enough);
    }
    let Some(place) = matched.place(lookup_record.sequence_index) else {
        return Ok(Turn::On);
    };
    if place >= before {
        return Ok(Turn::On);
    }
    let distance = buffer.out_len().abs_diff(place);
    if !progress.search.budget.pay_for(distance) {
        return Ok(Turn::Enough);
    }
    if !buffer.move_to(place)? {
        return Ok(Turn::Refused);
    }
    match apply_other(buffer, substitutions, lookup_record.lookup, progress, depth)? {
        Step::Passed => Ok(Turn::On),
        Step::Refused => Ok(Turn::Refused),
        Step::Applied => Ok(follow(
            buffer,
            matched,
            lookup_record.sequence_index,
            before,
        )),
    }
}

/// Lets a match follow a lookup that was applied to its glyph of this number, where both sides had so
/// many glyphs before. Where lookups took glyphs out of the match, that glyph may stand behind its end:
/// then what became of it is not to be parted from it.
///
/// # Requires
///
/// - `opened: buffer.old.have_output ≡ true`
/// - `number: number < length matched.old.places.items`
fn follow(buffer: &mut hb_buffer_t, matched: &mut Matched, number: usize, before: usize) -> Turn {
    debug_assert!(buffer.have_output());
    let after = both_len(buffer);
    if matched.is_behind(number) {
        mark_from(
            buffer,
            matched.end.saturating_sub(1),
            usize::from(after < before),
        );
    }
    if matched.follow(number, before, after) {
        Turn::On
    } else {
        Turn::Enough
    }
}

/// Applies another lookup at the cursor, if lookups may still apply others.
///
/// # Requires
///
/// - `buffer.old.have_output ≡ true`
fn apply_other(
    buffer: &mut hb_buffer_t,
    substitutions: &Substitutions,
    index: u16,
    progress: &mut Progress,
    depth: u32,
) -> Result<Step, AllocError> {
    debug_assert!(buffer.have_output());
    if depth == 0 || !progress.search.budget.nest() {
        fail(buffer);
        return Ok(Step::Passed);
    }
    if buffer.lookahead_len() == 0 {
        return Ok(Step::Passed);
    }
    match substitutions.list.lookup(index) {
        Some(lookup) => {
            let applied = LookupContext::new(lookup, &substitutions.options, false);
            apply_at(buffer, substitutions, &applied, progress, depth - 1)
        }
        None => Ok(Step::Passed),
    }
}
