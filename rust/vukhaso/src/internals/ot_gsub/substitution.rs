// Written by tools/plain_rust from crates/ot_gsub. Do not edit.

//! One lookup, applied to all glyphs of a buffer.

use crate::buffer::hb_buffer_t;
use crate::font_tables::gdef::Gdef;
use crate::memory::AllocError;
use crate::ot_contexts::context::MAX_NESTING_LEVEL;
use crate::ot_gsub::nested::apply_at;
use crate::ot_gsub::reverse::substitute_reverse;
use crate::ot_gsub::writing::fail;
use crate::ot_layout::budget::PASSED_A_STEP;
use crate::ot_layout::{Budget, LookupContext, LookupOptions, Search};
use crate::ot_lookups::{Lookup, LookupList, SubtableKind};

/// The lookups, and how one of them is applied.
#[derive(Clone, Copy, Debug)]
pub struct Substitutions<'a> {
    /// The lookups of `GSUB`.
    pub list: &'a LookupList<'a>,
    /// The classes of the font's glyphs.
    pub gdef: &'a Gdef<'a>,
    /// How the lookup is applied.
    pub options: LookupOptions,
}

/// What is carried from lookup to lookup while a text is shaped.
#[derive(Debug)]
pub struct Progress {
    /// What the lookups may still cost, and what the last search found.
    pub search: Search,
    /// The state of the random numbers, which choose alternates.
    pub random_state: u32,
    /// Whether a lookup changed the glyphs of the text. Whoever has seen it may take it back.
    pub has_changed: bool,
}

impl Progress {
    /// The progress of a text of which nothing is substituted yet.
    ///
    /// # Proved
    ///
    /// ```text
    /// ensures budget { result.search.budget ≡ budget }
    /// ensures random { result.random_state ≡ 1 }
    /// ```
    #[inline]
    pub fn new(budget: Budget) -> Self {
        Progress {
            search: Search::new(budget),
            random_state: 1,
            has_changed: false,
        }
    }
}

/// Applies the lookup of this index at each glyph, in one walk. Where the budget is spent, the rest of
/// the text stays as it is, and `buffer.shaping_failed` says so.
///
/// A lookup that is for no glyph of the text costs a test of each, mostly by the digest.
///
/// # Requires
///
/// - `buffer.old.have_output ≡ false`
///
/// # Errors
///
/// `Ok(false)` where the buffer refused a call for length: the output is then still open.
/// `Err(AllocError)` where memory ran out.
///
/// # Proved
///
/// ```text
/// ensures run { 0 < progress.new.search.budget.steps
///     → IsRun substitutions.now (slice_get substitutions.now.list.now.lookups.items index) (now_of buffer.old progress.old) result
///     (now_of buffer.new progress.new) }
/// ensures singles { let lookup = slice_get substitutions.now.list.now.lookups.items index in
///     0 < progress.new.search.budget.steps → buffer.old.successful ≡ true
///     → IsSingleIf substitutions.now lookup buffer.old
///     → IsSubstituted substitutions.now lookup buffer.old result buffer.new }
/// ensures tells { result ≡ Ok true → TellsChanges buffer.old progress.old.has_changed buffer.new progress.new.has_changed }
/// ensures left { IsLeftClosed result buffer.new }
/// ensures spent { IsNotMore progress.old.search.budget progress.new.search.budget }
/// ensures refusal { IsRefusal false result buffer.new }
/// ensures keeps { KeepsClusters buffer.old buffer.new }
/// ```
pub fn substitute(
    buffer: &mut hb_buffer_t,
    substitutions: &Substitutions,
    index: u16,
    progress: &mut Progress,
) -> Result<bool, AllocError> {
    debug_assert!(!buffer.have_output());
    let mask = substitutions.options.mask;
    let Some(lookup) = substitutions.list.lookup(index) else {
        return Ok(true);
    };
    progress
        .search
        .budget
        .pay_for(1 + buffer.len() / PASSED_A_STEP);
    if mask == 0 {
        return Ok(true);
    }
    let first = lookup.first_place(mask, buffer.info(), 0);
    if first == buffer.len() {
        return Ok(true);
    }
    if progress.search.budget.is_spent() {
        fail(buffer);
        return Ok(true);
    }
    if is_reverse(substitutions.list, lookup) {
        substitute_reverse(buffer, substitutions, lookup, progress);
        fail_if_spent(buffer, progress);
        return Ok(true);
    }
    substitute_forward(buffer, substitutions, lookup, first, progress)
}

/// Says that shaping was given up where the budget is spent.
fn fail_if_spent(buffer: &mut hb_buffer_t, progress: &Progress) {
    if progress.search.budget.is_spent() {
        fail(buffer);
    }
}

/// Whether a lookup is applied from the end.
fn is_reverse(list: &LookupList, lookup: &Lookup) -> bool {
    match list.subtables_of(lookup).first() {
        Some(subtable) => subtable.kind == SubtableKind::ReverseSubstitution,
        None => false,
    }
}

/// Applies a lookup from the glyph at a place on: it is for none of those before.
///
/// # Requires
///
/// - `closed: buffer.old.have_output ≡ false`
/// - `first: first ≤ length buffer.old.input`
/// - `passed: (place : ℕ) → place < first → is_for lookup.now substitutions.now.options.mask (glyph_at buffer.old.input place) ≡ false`
/// - `at: first < length buffer.old.input → is_for lookup.now substitutions.now.options.mask (glyph_at buffer.old.input first) ≡ true`
fn substitute_forward(
    buffer: &mut hb_buffer_t,
    substitutions: &Substitutions,
    lookup: &Lookup,
    first: usize,
    progress: &mut Progress,
) -> Result<bool, AllocError> {
    debug_assert!(!buffer.have_output());
    debug_assert!(first <= buffer.info().len());
    debug_assert!(!buffer.have_separate_output());
    debug_assert!(buffer.out_len() == 0);
    debug_assert!(first <= buffer.len());
    if !open_at(buffer, first)? {
        return Ok(false);
    }
    let applied = LookupContext::new(lookup, &substitutions.options, false);
    if !substitute_rest(buffer, substitutions, &applied, progress)? {
        return Ok(false);
    }
    fail_if_spent(buffer, progress);
    buffer.sync()
}

/// Opens an output, and puts the first glyphs out.
///
/// # Requires
///
/// - `closed: buffer.old.have_output ≡ false`
/// - `first: first ≤ length buffer.old.input`
fn open_at(buffer: &mut hb_buffer_t, first: usize) -> Result<bool, AllocError> {
    debug_assert!(!buffer.have_output());
    debug_assert!(first <= buffer.info().len());
    buffer.clear_output();
    buffer.next_glyphs(first)
}

/// Applies the lookup at each glyph from the cursor on, while steps are left.
///
/// # Requires
///
/// - `opened: buffer.old.have_output ≡ true`
/// - `made: IsMadeFor substitutions.now.options false applied.now`
fn substitute_rest(
    buffer: &mut hb_buffer_t,
    substitutions: &Substitutions,
    applied: &LookupContext,
    progress: &mut Progress,
) -> Result<bool, AllocError> {
    debug_assert!(buffer.have_output());
    let count = buffer.len();
    for _turn in 0..count {
        if buffer.lookahead_len() == 0 {
            return Ok(true);
        }
        if progress.search.budget.is_spent() {
            return Ok(true);
        }
        let step = apply_at(buffer, substitutions, applied, progress, MAX_NESTING_LEVEL)?;
        let passed = match step.passed() {
            Some(passed) => passed,
            None => return Ok(false),
        };
        if !go_on(buffer, substitutions, applied.lookup, passed)? {
            return Ok(false);
        }
    }
    Ok(true)
}

/// Puts out so many glyphs, if there are as many, and those after them that the lookup is not for.
///
/// # Requires
///
/// - `buffer.old.have_output ≡ true`
fn go_on(
    buffer: &mut hb_buffer_t,
    substitutions: &Substitutions,
    lookup: &Lookup,
    count: usize,
) -> Result<bool, AllocError> {
    debug_assert!(buffer.have_output());
    let input = buffer.info();
    let mask = substitutions.options.mask;
    let start = count.min(input.len());
    let passed = lookup.first_place(mask, input, start);
    if passed == 0 {
        return Ok(true);
    }
    buffer.next_glyphs(passed)
}
