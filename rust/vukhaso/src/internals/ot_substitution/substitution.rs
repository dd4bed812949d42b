// Written by tools/plain_rust from crates/ot_substitution. Do not edit.

//! What a lookup of `GSUB` does at the cursor (OpenType specification, "GSUB - Glyph Substitution Table").

use crate::font_tables::bytes::{table_at_16, tail, u16_at};
use crate::ot_contexts::context::{Fit, fitting_rule};
use crate::ot_contexts::matching::{match_backtrack, match_input, match_lookahead};
use crate::ot_contexts::neighbours::{Next, next_seen};
use crate::ot_contexts::rule::{MatchFunction, Sequence, coverages_at};
use crate::ot_layout::budget::{PASSED_A_STEP, SUBTABLE_STEPS};
use crate::ot_layout::search::{ApplyContext, Search};
use crate::ot_layout::skipping_iterator::LookupOptions;
use crate::ot_lookups::lookup_list::{Lookup, LookupList};
use crate::ot_lookups::lookup_props::covered_index;
use crate::ot_lookups::sets::set_at;
use crate::ot_lookups::subtable::Subtable;
use crate::ot_lookups::subtable_kind::{SingleFormat, SubtableKind};
use crate::ot_substitution::glyph_table::Glyphs;

/// The value of a feature that stands for any of its alternates, where it is `rand` (HarfBuzz, `HB_OT_MAP_MAX_VALUE`).
const ANY_ALTERNATE: u32 = 255;

/// What a lookup does at the cursor.
#[derive(Clone, Copy, Debug)]
pub enum Edit<'a> {
    /// The glyph becomes this one.
    Replace(u16),
    /// The glyph becomes one of these, by chance.
    Choose(Glyphs<'a>),
    /// The glyph becomes these; none where it is dropped.
    Multiply(Glyphs<'a>),
    /// The glyphs of the match become one, and what was passed over between them stays.
    Ligate(Ligation),
    /// Lookups are applied to the glyphs of the match.
    Apply(Fit<'a>),
    /// The glyph becomes this one in place, in a pass from the end.
    ReplaceInPlace(InPlace),
}

/// A glyph that comes into the place of another one, in a pass from the end.
#[derive(Clone, Copy, Debug)]
pub struct InPlace {
    /// The glyph.
    pub glyph: u16,
    /// The first glyph before it that was looked at, as its place in `out`.
    pub from: usize,
    /// How far the input was looked at.
    pub to: usize,
}

/// A ligature of the glyphs of a match, whose places are in `Search::places`.
#[derive(Clone, Copy, Debug)]
pub struct Ligation {
    /// The glyph that they become.
    pub ligature: u16,
    /// How many glyphs of the input it takes, with those that are passed over.
    pub end: usize,
    /// How far other ligatures would have looked into the input.
    pub beyond: usize,
}

/// What a lookup does at the first glyph of the input: the edit of the first subtable that has one.
///
/// A lookup that another one applies is nested: it makes no reverse substitution.
///
/// # Requires
///
/// - `0 < length ctx.now.input.now`
///
/// # Proved
///
/// ```text
/// ensures spent { IsNotMore search.old.budget search.new.budget }
/// ensures passed { HasPassed (length (subtables_of list.now.subtables.items lookup.now)) search.old.budget search.new.budget }
/// ensures first { 0 < search.new.budget.steps
///     → IsFirstEdit list.now.coverages.items options.now ctx.now is_nested
///     (subtables_of list.now.subtables.items lookup.now) search.new.places.items result }
/// ```
#[inline(always)]
pub fn edit_at<'a>(
    list: &'a LookupList<'a>,
    lookup: &Lookup,
    options: &LookupOptions,
    is_nested: bool,
    ctx: &ApplyContext,
    search: &mut Search,
) -> Option<Edit<'a>> {
    let glyph = ctx.input[0].glyph_id;
    let subtables = list.subtables_of(lookup);
    search.budget.pay_for(subtables.len() / PASSED_A_STEP);
    for subtable in subtables {
        if subtable.may_be_for(glyph) {
            if !search.budget.pay(SUBTABLE_STEPS) {
                return None;
            }
            let edit = edit_of(list, subtable, options, is_nested, ctx, search);
            if edit.is_some() {
                return edit;
            }
        }
    }
    None
}

/// What a subtable does at the first glyph of the input.
///
/// # Requires
///
/// - `some: 0 < length ctx.now.input.now`
/// - `next: IsNextOf list.now.coverages.items subtable.now`
#[inline(always)]
fn edit_of<'a>(
    list: &'a LookupList<'a>,
    subtable: &Subtable<'a>,
    options: &LookupOptions,
    is_nested: bool,
    ctx: &ApplyContext,
    search: &mut Search,
) -> Option<Edit<'a>> {
    let glyph = &ctx.input[0];
    let index = covered_index(&subtable.coverage, glyph.glyph_id)?;
    match subtable.kind {
        SubtableKind::SingleSubstitution(format) => Some(Edit::Replace(single(
            format,
            subtable.table,
            glyph.glyph_id,
            index,
        )?)),
        SubtableKind::MultipleSubstitution => Some(multiple(subtable.table, index)),
        SubtableKind::AlternateSubstitution => {
            alternate(subtable.table, index, glyph.mask, options)
        }
        SubtableKind::LigatureSubstitution => ligature_by(subtable, index, ctx, search),
        SubtableKind::Context(_) | SubtableKind::ChainedContext(_) => Some(Edit::Apply(
            fitting_rule(list, subtable, index, ctx, search)?,
        )),
        SubtableKind::ReverseSubstitution if !is_nested => {
            reverse(list, subtable, index, ctx, search)
        }
        _ => None,
    }
}

/// The single substitution of a glyph with this coverage index.
fn single(format: SingleFormat, table: &[u8], glyph: u32, index: u32) -> Option<u16> {
    match format {
        SingleFormat::Delta => {
            let delta = u16_at(table, 4)?;
            let low = (glyph % 65536) as u16;
            Some(low.wrapping_add(delta))
        }
        SingleFormat::Glyphs if index < u32::from(u16_at(table, 4)?) => {
            u16_at(table, 6 + 2 * index as usize)
        }
        SingleFormat::Glyphs => None,
    }
}

/// The sequence of a glyph with this coverage index. One glyph is put in place.
fn multiple<'a>(table: &'a [u8], index: u32) -> Edit<'a> {
    let sequence = Glyphs::new(set_at(table, index));
    if sequence.len() == 1 {
        Edit::Replace(sequence.glyph(0))
    } else {
        Edit::Multiply(sequence)
    }
}

/// The alternate of a glyph with this coverage index that the value of its feature chooses.
fn alternate<'a>(
    table: &'a [u8],
    index: u32,
    mask: u32,
    options: &LookupOptions,
) -> Option<Edit<'a>> {
    let set = Glyphs::new(set_at(table, index));
    let value = feature_value(options.mask, mask);
    if set.len() > 0 && value == ANY_ALTERNATE && options.random {
        return Some(Edit::Choose(set));
    }
    Some(Edit::Replace(alternate_of(&set, value)?))
}

/// The alternate that a value chooses: 1 chooses the first, and 0 none.
fn alternate_of(set: &Glyphs, value: u32) -> Option<u16> {
    if value == 0 || value > u32::from(set.len()) {
        return None;
    }
    Some(set.glyph((value - 1) as u16))
}

/// The value of a feature, in the bits that the feature has in a glyph's mask.
fn feature_value(feature: u32, mask: u32) -> u32 {
    if feature == 0 {
        0
    } else {
        (feature & mask) >> feature.trailing_zeros()
    }
}

/// The first ligature of the set of a coverage index whose components stand at the cursor. Mostly the
/// next glyph is the second one of no ligature at all.
///
/// # Requires
///
/// - `0 < length ctx.now.input.now`
fn ligature_by<'a>(
    subtable: &Subtable<'a>,
    index: u32,
    ctx: &ApplyContext,
    search: &mut Search,
) -> Option<Edit<'a>> {
    let set = set_at(subtable.table, index);
    let next = next_seen(&ctx.input_iterator(), ctx.input, 0);
    if let Some(end) = missed_second(subtable, &next, ctx) {
        if u16_at(set, 0).unwrap_or(0) > 0 {
            search.reach.extend(ctx.out.len(), end);
        }
        return None;
    }
    ligature_in(set, &next, ctx, search)
}

/// How far glyphs were looked at, where the next glyph is the second one of no ligature of a subtable.
///
/// # Requires
///
/// - `next: IfSome next.now (IsNext (input_iterator _sides.now) _sides.now.input.now 0)`
fn missed_second(subtable: &Subtable, next: &Option<Next>, _sides: &ApplyContext) -> Option<usize> {
    let Some(next) = *next else {
        return None;
    };
    match subtable.seconds {
        Some(seconds) if !seconds.may_have(next.glyph) => Some(next.end),
        _ => None,
    }
}

/// The first ligature of a set whose components stand at the cursor.
///
/// # Requires
///
/// - `some: 0 < length ctx.now.input.now`
/// - `next: IfSome next.now (IsNext (input_iterator ctx.now) ctx.now.input.now 0)`
fn ligature_in<'a>(
    set: &'a [u8],
    next: &Option<Next>,
    ctx: &ApplyContext,
    search: &mut Search,
) -> Option<Edit<'a>> {
    let count = usize::from(u16_at(set, 0)?);
    let is_told_at_end = count > 4 && matches!(*next, Some(next) if next.is_there());
    let mut beyond = 0;
    for index in 0..count {
        if !search.budget.pay(1) {
            return None;
        }
        if let Some(edit) = ligature_at(set, index, next, &mut beyond, ctx, search) {
            return Some(edit);
        }
        if !is_told_at_end {
            search.reach.extend(ctx.out.len(), beyond);
            beyond = 0;
        }
    }
    search.reach.extend(ctx.out.len(), beyond);
    None
}

/// The ligature of this number in a set, if its components stand at the cursor. One that asks for
/// another second glyph than the next one is not tried, and `beyond` says that it was looked at.
///
/// # Requires
///
/// - `some: 0 < length ctx.now.input.now`
/// - `few: index < 65536`
/// - `next: IfSome next.now (IsNext (input_iterator ctx.now) ctx.now.input.now 0)`
fn ligature_at<'a>(
    set: &'a [u8],
    index: usize,
    next: &Option<Next>,
    beyond: &mut usize,
    ctx: &ApplyContext,
    search: &mut Search,
) -> Option<Edit<'a>> {
    debug_assert!(index < 65536);
    let table = table_at_16(set, 2 + 2 * index)?;
    match *next {
        Some(next) if is_other(table, next.glyph) => {
            *beyond = next.end;
            None
        }
        _ => ligature(table, *beyond, ctx, search),
    }
}

/// Whether a ligature asks for another second glyph than this one.
fn is_other(table: &[u8], glyph: u32) -> bool {
    u16_at(table, 2).unwrap_or(0) > 1
        && match u16_at(tail(table, 4), 0) {
            Some(second) => u32::from(second) != glyph,
            None => true,
        }
}

/// The ligature, if its components stand at the cursor. One of a single component is put in place.
///
/// # Requires
///
/// - `0 < length ctx.now.input.now`
fn ligature<'a>(
    table: &'a [u8],
    beyond: usize,
    ctx: &ApplyContext,
    search: &mut Search,
) -> Option<Edit<'a>> {
    let glyph = u16_at(table, 0)?;
    let count = u16_at(table, 2)?;
    if count <= 1 {
        return if count == 1 {
            Some(Edit::Replace(glyph))
        } else {
            None
        };
    }
    let components = Sequence {
        match_function: MatchFunction::Glyphs,
        numbers: tail(table, 4),
        count: count - 1,
    };
    match match_input(ctx, &components, search) {
        Ok(end) => Some(Edit::Ligate(Ligation {
            ligature: glyph,
            end,
            beyond,
        })),
        Err(to) => {
            search.reach.extend(ctx.out.len(), to);
            None
        }
    }
}

/// The reverse substitution of a glyph with this coverage index, if the glyphs before it and after it
/// are covered.
///
/// # Requires
///
/// - `0 < length ctx.now.input.now`
fn reverse<'a>(
    list: &'a LookupList<'a>,
    subtable: &Subtable<'a>,
    index: u32,
    ctx: &ApplyContext,
    search: &mut Search,
) -> Option<Edit<'a>> {
    let table = subtable.table;
    let backtrack = u16_at(table, 4).unwrap_or(0);
    let lookahead = u16_at(table, 6 + 2 * usize::from(backtrack)).unwrap_or(0);
    let glyph = substitute(table, backtrack, lookahead, index)?;
    let parts = covered_sequence(list, subtable, 0, backtrack);
    let from = match match_backtrack(ctx, &parts, search) {
        Ok(from) => from,
        Err(from) => {
            search.reach.extend(from, 1);
            return None;
        }
    };
    let parts = covered_sequence(list, subtable, usize::from(backtrack), lookahead);
    match match_lookahead(ctx, &parts, 1, search) {
        Ok(to) => Some(Edit::ReplaceInPlace(InPlace { glyph, from, to })),
        Err(to) => {
            search.reach.extend(from, to);
            None
        }
    }
}

/// The substitute of a coverage index, behind the offsets of so many coverages.
fn substitute(table: &[u8], backtrack: u16, lookahead: u16, index: u32) -> Option<u16> {
    let count_at = 8 + 2 * usize::from(backtrack) + 2 * usize::from(lookahead);
    if index < u32::from(u16_at(table, count_at)?) {
        u16_at(table, count_at + 2 + 2 * index as usize)
    } else {
        None
    }
}

/// So many of the coverages of a subtable, from the one of this number on.
fn covered_sequence<'a>(
    list: &'a LookupList<'a>,
    subtable: &Subtable<'a>,
    first: usize,
    count: u16,
) -> Sequence<'a> {
    coverages_at(list.coverages_from(subtable, 0), first, count)
}
