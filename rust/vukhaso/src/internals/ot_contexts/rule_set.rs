// Written by tools/plain_rust from crates/ot_contexts. Do not edit.

//! The rules of a set, of which the first that fits is taken.

use crate::font_tables::bytes::{table_at_16, u16_at};
use crate::glyph::hb_glyph_info_t;
use crate::ot_contexts::asked::{Asked, asked_next};
use crate::ot_contexts::context::Fit;
use crate::ot_contexts::matching::{match_backtrack, match_input, match_lookahead};
use crate::ot_contexts::neighbours::{Beyond, Neighbours, looks_first, may_fit, seen_ahead};
use crate::ot_contexts::rule::{MatchFunctions, Rule, rule_in};
use crate::ot_contexts::told::{Beside, Told};
use crate::ot_layout::search::{ApplyContext, Search};
use crate::ot_layout::skipping_iterator::Skip;

/// The rule, if it fits at the cursor.
///
/// # Requires
///
/// - `0 < length ctx.now.input.now`
///
/// # Proved
///
/// ```text
/// ensures spent { IsNotMore search.old.budget search.new.budget }
/// ensures fits { IfSome result (IsFitWithin (length ctx.now.out.now) (length ctx.now.input.now)) }
/// ensures places { IfSome result (λ found. AreMatchPositions (input_iterator ctx.now) (sequence_matcher rule.now.input)
///     ctx.now.input.now rule.now.input.count search.new.places.items) }
/// ensures records { IfSome result (λ found. found.records.now ≡ rule.now.records.now) }
/// ensures is { IfSome result (IsFitOf ctx.now (pattern_of rule.now) search.new.places.items) }
/// ensures exact { 0 < search.new.budget.steps → is_some result ≡ pattern_fits ctx.now (pattern_of rule.now) }
/// ensures looked { 0 < search.new.budget.steps
///     → search.new.reach ≡ extended search.old.reach (missed_range ctx.now (pattern_of rule.now)) }
/// ```
pub fn fit<'a>(rule: &Rule<'a>, ctx: &ApplyContext, search: &mut Search) -> Option<Fit<'a>> {
    let end = match match_input(ctx, &rule.input, search) {
        Ok(end) => end,
        Err(to) => {
            search.reach.extend(ctx.out.len(), to);
            return None;
        }
    };
    let to = match match_lookahead(ctx, &rule.lookahead, end, search) {
        Ok(to) => to,
        Err(to) => {
            search.reach.extend(ctx.out.len(), to);
            return None;
        }
    };
    match match_backtrack(ctx, &rule.backtrack, search) {
        Ok(from) => Some(Fit {
            end,
            from,
            to,
            beyond: 0,
            record_count: rule.record_count,
            records: rule.records,
        }),
        Err(from) => {
            search.reach.extend(from, to);
            None
        }
    }
}

/// A set of rules.
#[derive(Clone, Copy, Debug)]
pub struct RuleSet<'a> {
    /// Its table.
    pub table: &'a [u8],
    /// What the numbers of its rules mean.
    pub match_functions: MatchFunctions<'a>,
    /// Whether its rules have parts before and after the input.
    pub is_chained: bool,
}

/// What stands after the cursor, looked at once for all rules of a set.
#[derive(Clone, Copy, Debug)]
struct Seen {
    /// The next two glyphs of the input, where HarfBuzz looks at them first.
    neighbours: Neighbours,
    /// These in the numbers of the rules.
    told: Option<Told>,
    /// Where they were not looked at, the next glyph of the input.
    input: Option<Beside>,
    /// And the next glyph after an input of a single glyph, for chained rules.
    lookahead: Option<Beside>,
}

/// What stands after the cursor for the rules of a set, of which there are so many.
///
/// # Requires
///
/// - `0 < length ctx.now.input.now`
fn seen_by(rules: &RuleSet, count: usize, ctx: &ApplyContext) -> Seen {
    let neighbours = seen_ahead(count, rules.is_chained, ctx);
    match Told::new(&neighbours, &rules.match_functions) {
        Some(told) => Seen {
            neighbours,
            told: Some(told),
            input: None,
            lookahead: None,
        },
        None => Seen {
            neighbours,
            told: None,
            input: input_beside(rules, ctx),
            lookahead: lookahead_beside(rules, count, ctx),
        },
    }
}

/// The next glyph of the input.
///
/// # Requires
///
/// - `0 < length ctx.now.input.now`
fn input_beside(rules: &RuleSet, ctx: &ApplyContext) -> Option<Beside> {
    Beside::new(
        &ctx.input_iterator(),
        &rules.match_functions.input,
        ctx.input,
    )
}

/// The next glyph after an input of a single glyph, for chained rules that are all tried.
///
/// # Requires
///
/// - `0 < length ctx.now.input.now`
fn lookahead_beside(rules: &RuleSet, count: usize, ctx: &ApplyContext) -> Option<Beside> {
    if !rules.is_chained || looks_first(count, true, ctx) {
        return None;
    }
    Beside::new(
        &ctx.context_iterator(true),
        &rules.match_functions.lookahead,
        ctx.input,
    )
}

/// The first rule of a set that fits.
///
/// # Requires
///
/// - `0 < length ctx.now.input.now`
///
/// # Proved
///
/// ```text
/// ensures spent { IsNotMore search.old.budget search.new.budget }
/// ensures fits { IfSome result (IsFitWithin (length ctx.now.out.now) (length ctx.now.input.now)) }
/// ensures rule { IfSome result
///     (IsFitBy ctx.now (rule_of_set ctx.now rules.now.is_chained rules.now.match_functions (Some rules.now.table.now))
///     search.new.places.items) }
/// ensures exact { 0 < search.new.budget.steps → is_some result
///     ≡ is_some (rule_of_set ctx.now rules.now.is_chained rules.now.match_functions (Some rules.now.table.now)) }
/// ```
pub fn first_fit<'a>(
    rules: &RuleSet<'a>,
    ctx: &ApplyContext,
    search: &mut Search,
) -> Option<Fit<'a>> {
    let count = usize::from(u16_at(rules.table, 0)?);
    let seen = seen_by(rules, count, ctx);
    let mut beyond = Beyond::new(&seen.neighbours, rules.is_chained);
    let mut index = first_unpassed(rules, 0, count, &seen, known(&seen, &beyond, search), ctx);
    if !search.budget.pay_for(index) {
        return None;
    }
    while index < count {
        if !search.budget.pay(1) {
            return None;
        }
        if let Some(found) = fit_at(rules, index, &seen, &mut beyond, ctx, search) {
            return Some(Fit {
                beyond: beyond.to,
                ..found
            });
        }
        let known = known(&seen, &beyond, search);
        let next = first_unpassed(rules, index + 1, count, &seen, known, ctx);
        if !search.budget.pay_for(next - (index + 1)) {
            return None;
        }
        index = next;
    }
    search.reach.extend(ctx.out.len(), beyond.to);
    None
}

/// How far glyphs are known to be looked at.
fn known(seen: &Seen, beyond: &Beyond, search: &Search) -> usize {
    if seen.told.is_some() {
        beyond.to
    } else {
        search.reach.to
    }
}

/// The first rule from this number on that is not passed over by its bytes alone, or how many rules
/// there are.
///
/// # Requires
///
/// - `within: index ≤ count`
/// - `few: count < 65536`
/// - `neighbours: (p : Pattern) → may_fit seen.now.neighbours p ≡ (not (looks_first _ctx.now rules.now.is_chained (rule_count rules.now.table.now)) || fits_next _ctx.now p)`
/// - `told: IfSome seen.now.told (IsTold seen.now.neighbours rules.now.match_functions)`
/// - `input: IfSome seen.now.input (IsInput _ctx.now rules.now.match_functions)`
/// - `lookahead: IfSome seen.now.lookahead (IsLookahead _ctx.now rules.now.match_functions)`
fn first_unpassed(
    rules: &RuleSet,
    index: usize,
    count: usize,
    seen: &Seen,
    known: usize,
    _ctx: &ApplyContext,
) -> usize {
    debug_assert!(index <= count);
    debug_assert!(count < 65536);
    match &seen.told {
        Some(told) => match told.within(known) {
            Some(told) => first_unparted(rules, index, count, &told, seen, _ctx),
            None => index,
        },
        None => first_unmissed(rules, index, count, seen, known, _ctx),
    }
}

/// The same where the next glyphs were looked at before the rules: these are they in the numbers of
/// rules.
///
/// # Requires
///
/// - `within: index ≤ count`
/// - `few: count < 65536`
/// - `neighbours: (p : Pattern) → may_fit _seen.now.neighbours p ≡ (not (looks_first _ctx.now rules.now.is_chained (rule_count rules.now.table.now)) || fits_next _ctx.now p)`
/// - `told: IsTold _seen.now.neighbours rules.now.match_functions told.now`
fn first_unparted(
    rules: &RuleSet,
    index: usize,
    count: usize,
    told: &Told,
    _seen: &Seen,
    _ctx: &ApplyContext,
) -> usize {
    debug_assert!(index <= count);
    debug_assert!(count < 65536);
    for at in index..count {
        if !is_parted(rules, at, told, _seen, _ctx) {
            return at;
        }
    }
    count
}

/// Whether the rule of this number asks for other next glyphs than these.
///
/// # Requires
///
/// - `few: index < 65536`
/// - `neighbours: (p : Pattern) → may_fit _seen.now.neighbours p ≡ (not (looks_first _ctx.now rules.now.is_chained (rule_count rules.now.table.now)) || fits_next _ctx.now p)`
/// - `told: IsTold _seen.now.neighbours rules.now.match_functions told.now`
#[inline(always)]
fn is_parted(
    rules: &RuleSet,
    index: usize,
    told: &Told,
    _seen: &Seen,
    _ctx: &ApplyContext,
) -> bool {
    debug_assert!(index < 65536);
    match table_within(rules.table, 2 + 2 * index) {
        Some(table) => told.is_apart(table, rules.is_chained),
        None => false,
    }
}

/// The same where it was not.
///
/// # Requires
///
/// - `within: index ≤ count`
/// - `few: count < 65536`
/// - `input: IfSome seen.now.input (IsInput _ctx.now rules.now.match_functions)`
/// - `lookahead: IfSome seen.now.lookahead (IsLookahead _ctx.now rules.now.match_functions)`
fn first_unmissed(
    rules: &RuleSet,
    index: usize,
    count: usize,
    seen: &Seen,
    known: usize,
    _ctx: &ApplyContext,
) -> usize {
    debug_assert!(index <= count);
    debug_assert!(count < 65536);
    for at in index..count {
        if !is_missed(rules, at, seen, known, _ctx) {
            return at;
        }
    }
    count
}

/// Whether the rule of this number asks for another glyph after the cursor, and glyphs are known to be
/// looked at so far.
///
/// # Requires
///
/// - `few: index < 65536`
/// - `input: IfSome seen.now.input (IsInput _ctx.now rules.now.match_functions)`
/// - `lookahead: IfSome seen.now.lookahead (IsLookahead _ctx.now rules.now.match_functions)`
#[inline(always)]
fn is_missed(
    rules: &RuleSet,
    index: usize,
    seen: &Seen,
    known: usize,
    _ctx: &ApplyContext,
) -> bool {
    debug_assert!(index < 65536);
    let Some(table) = table_within(rules.table, 2 + 2 * index) else {
        return false;
    };
    match missed_by(table, rules.is_chained, seen) {
        Some(missed) => missed.end <= known,
        None => false,
    }
}

/// The table that the offset at a place leads to, if it lies in this one.
#[inline(always)]
fn table_within(set: &[u8], at: usize) -> Option<&[u8]> {
    let offset = u16_at(set, at)?;
    if offset == 0 {
        return None;
    }
    set.get(usize::from(offset)..)
}

/// The rule of this number in a set, if it fits. One that asks for other glyphs after the cursor is not
/// made.
///
/// # Requires
///
/// - `some: 0 < length ctx.now.input.now`
/// - `few: index < 65536`
/// - `neighbours: (p : Pattern) → may_fit seen.now.neighbours p ≡ (not (looks_first ctx.now rules.now.is_chained (rule_count rules.now.table.now)) || fits_next ctx.now p)`
/// - `told: IfSome seen.now.told (IsTold seen.now.neighbours rules.now.match_functions)`
/// - `input: IfSome seen.now.input (IsInput ctx.now rules.now.match_functions)`
/// - `lookahead: IfSome seen.now.lookahead (IsLookahead ctx.now rules.now.match_functions)`
fn fit_at<'a>(
    rules: &RuleSet<'a>,
    index: usize,
    seen: &Seen,
    beyond: &mut Beyond,
    ctx: &ApplyContext,
    search: &mut Search,
) -> Option<Fit<'a>> {
    debug_assert!(index < 65536);
    let table = table_at_16(rules.table, 2 + 2 * index)?;
    if let Some(end) = told_apart(table, rules.is_chained, seen) {
        if beyond.to < end {
            let _whole = rule_in(table, &rules.match_functions, rules.is_chained)?;
            beyond.to = end;
        }
        return None;
    }
    if let Some(missed) = missed_by(table, rules.is_chained, seen) {
        search.budget.pay_for(missed.steps);
        search.reach.extend(ctx.out.len(), missed.end);
        return None;
    }
    let rule = rule_in(table, &rules.match_functions, rules.is_chained)?;
    if !may_fit(&rule, &seen.neighbours, beyond) {
        return None;
    }
    fit(&rule, ctx, search)
}

/// Whether a glyph counts for the iterator over the glyphs around a match, whatever is asked for.
///
/// # Proved
///
/// ```text
/// ensures { IsTrue result → skip_of (context_iterator ctx.now true) glyph.now ≡ No }
/// ```
#[inline]
pub fn counts_around(ctx: &ApplyContext, glyph: &hb_glyph_info_t) -> bool {
    ctx.context.skip(glyph) == Skip::No
}

/// How far glyphs were looked at, where the rule in these bytes asks for other glyphs than the next
/// two.
#[inline(always)]
fn told_apart(table: &[u8], is_chained: bool, seen: &Seen) -> Option<usize> {
    match &seen.told {
        Some(told) => told.apart(table, is_chained),
        None => None,
    }
}

/// What stands right after the cursor, where the rule in these bytes asks for something else there.
#[inline(always)]
fn missed_by(table: &[u8], is_chained: bool, seen: &Seen) -> Option<Beside> {
    match asked_next(table, is_chained)? {
        Asked::Input(asked) => seen.input?.other_than(asked),
        Asked::Lookahead(asked) => seen.lookahead?.other_than(asked),
    }
}
