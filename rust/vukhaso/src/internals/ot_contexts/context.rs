// Written by tools/plain_rust from crates/ot_contexts. Do not edit.

//! Contexts: rules of glyphs at the cursor, before them and after them, as `GSUB` and `GPOS` have them (OpenType specification,
//! "OpenType Layout Common Table Formats", "Sequence Context").

use crate::font_tables::bytes::{table_at_16, u16_at};
use crate::glyph::hb_glyph_info_t;
use crate::ot_contexts::rule::{MatchFunction, MatchFunctions, coverage_rule};
use crate::ot_contexts::rule_set::{RuleSet, counts_around, first_fit, fit};
use crate::ot_layout::matcher::class_of;
use crate::ot_layout::search::{ApplyContext, Search};
use crate::ot_layout::skipping_iterator::Skip;
use crate::ot_lookups::lookup_list::LookupList;
use crate::ot_lookups::subtable::{NextAsked, Subtable};
use crate::ot_lookups::subtable_kind::ContextFormat;

/// How deep lookups may apply others (HarfBuzz, `HB_MAX_NESTING_LEVEL`).
pub const MAX_NESTING_LEVEL: u32 = 64;

/// A rule that fits at the cursor. The places of its glyphs are in `Search::places`.
#[derive(Clone, Copy, Debug)]
pub struct Fit<'a> {
    /// How many glyphs of the input it takes, with those that are passed over.
    pub end: usize,
    /// The first glyph before the cursor that it looked at, as its place in `out`.
    pub from: usize,
    /// How far it looked into the input.
    pub to: usize,
    /// How far other rules would have looked into the input.
    pub beyond: usize,
    /// How many lookups are applied.
    pub record_count: u16,
    /// The records of the lookups that are applied, of four bytes each.
    pub records: &'a [u8],
}

/// A lookup that a rule applies.
#[derive(Clone, Copy, Debug)]
pub struct SequenceLookupRecord {
    /// The number of the glyph at which it is applied, of those of the input.
    pub sequence_index: usize,
    /// The index of the lookup.
    pub lookup: u16,
}

impl<'a> Fit<'a> {
    /// The record of this number; `None` where the table is cut short before it.
    ///
    /// # Proved
    ///
    /// ```text
    /// ensures { index < 65536 → result ≡ record_at self.now.records.now index }
    /// ```
    #[inline]
    pub fn record(&self, index: usize) -> Option<SequenceLookupRecord> {
        let at = index.saturating_mul(4);
        Some(SequenceLookupRecord {
            sequence_index: usize::from(u16_at(self.records, at)?),
            lookup: u16_at(self.records, at.saturating_add(2))?,
        })
    }
}

/// The rule of a subtable that is taken at the cursor: the first of its set that fits. The subtable is
/// one of the list; its coverage has the glyph at the cursor, at this index. One that is no context has
/// no rule.
///
/// # Requires
///
/// - `0 < length ctx.now.input.now`
///
/// # Proved
///
/// ```text
/// ensures spent { IsNotMore search.old.budget search.new.budget }
/// ensures fits { IfSome result (IsFitWithin (length ctx.now.out.now) (length ctx.now.input.now)) }
/// ensures rule { IfSome result
///     (IsFitBy ctx.now (context_rule list.now.coverages.items subtable.now index ctx.now) search.new.places.items) }
/// ensures exact { IsNextOf list.now.coverages.items subtable.now → 0 < search.new.budget.steps
///     → is_some result ≡ is_some (context_rule list.now.coverages.items subtable.now index ctx.now) }
/// ```
pub fn fitting_rule<'a>(
    list: &'a LookupList<'a>,
    subtable: &Subtable<'a>,
    index: u32,
    ctx: &ApplyContext,
    search: &mut Search,
) -> Option<Fit<'a>> {
    let table = subtable.table;
    let is_chained = subtable.kind.is_chained();
    let (set, match_functions) = match subtable.kind.as_context()? {
        ContextFormat::Glyphs => (
            set_at(table, 4, index)?,
            same_match_function(MatchFunction::Glyphs),
        ),
        ContextFormat::Classes => {
            let class = class_of(&subtable.classes, ctx.input[0].glyph_id);
            let set = set_at(table, if is_chained { 10 } else { 6 }, u32::from(class))?;
            (set, class_meanings(subtable))
        }
        ContextFormat::Coverages => return covered_fit(list, subtable, ctx, search),
    };
    let rules = RuleSet {
        table: set,
        match_functions,
        is_chained,
    };
    first_fit(&rules, ctx, search)
}

/// The rule of a context by coverages, if it fits at the cursor. Mostly the next glyph shows at once
/// that it does not.
///
/// # Requires
///
/// - `0 < length ctx.now.input.now`
#[inline(always)]
fn covered_fit<'a>(
    list: &'a LookupList<'a>,
    subtable: &Subtable<'a>,
    ctx: &ApplyContext,
    search: &mut Search,
) -> Option<Fit<'a>> {
    if let Some(next) = &subtable.next {
        if let Some(to) = missed_next(next, ctx) {
            search.budget.pay(1);
            search.reach.extend(ctx.out.len(), to);
            return None;
        }
    }
    let coverages = list.coverages_from(subtable, 0);
    fit(
        &coverage_rule(subtable.table, coverages, subtable.kind.is_chained())?,
        ctx,
        search,
    )
}

/// Whether the glyph after the one at the cursor counts for a context by coverages, whatever is asked
/// for.
fn counts_next(next: &NextAsked, ctx: &ApplyContext, glyph: &hb_glyph_info_t) -> bool {
    if next.is_input {
        ctx.iterator.skip(glyph) == Skip::No
    } else {
        counts_around(ctx, glyph)
    }
}

/// How far glyphs were looked at, where the glyph after the one at the cursor counts and is not what is
/// asked for, or where there is none.
///
/// # Requires
///
/// - `0 < length ctx.now.input.now`
fn missed_next(next: &NextAsked, ctx: &ApplyContext) -> Option<usize> {
    if ctx.input.len() == 1 {
        return Some(1);
    }
    let glyph = &ctx.input[1];
    if next.digest.may_have(glyph.glyph_id) {
        return None;
    }
    if counts_next(next, ctx, glyph) {
        Some(2)
    } else {
        None
    }
}

/// The set of this number of a list of sets, their count standing at a place.
///
/// # Requires
///
/// - `at < 65536`
///
/// # Proved
///
/// ```text
/// ensures { option_copied result ≡ numbered_set table.now at number }
/// ```
#[inline]
pub fn set_at(table: &[u8], at: usize, number: u32) -> Option<&[u8]> {
    debug_assert!(at < 65536);
    if number < u32::from(u16_at(table, at)?) {
        table_at_16(table, at.saturating_add(2 + 2 * number as usize))
    } else {
        None
    }
}

/// The same meaning in all three parts.
///
/// # Proved
///
/// ```text
/// ensures { result ≡ same_match_function match_function.entry }
/// ```
#[inline]
pub fn same_match_function<'a>(match_function: MatchFunction<'a>) -> MatchFunctions<'a> {
    MatchFunctions {
        backtrack: match_function,
        input: match_function,
        lookahead: match_function,
    }
}

/// The classes of the three parts.
///
/// # Proved
///
/// ```text
/// ensures { result ≡ class_meanings subtable.now }
/// ```
#[inline]
pub fn class_meanings<'a>(subtable: &Subtable<'a>) -> MatchFunctions<'a> {
    MatchFunctions {
        backtrack: MatchFunction::Classes(subtable.backtrack_classes),
        input: MatchFunction::Classes(subtable.classes),
        lookahead: MatchFunction::Classes(subtable.lookahead_classes),
    }
}
