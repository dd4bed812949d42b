// Written by tools/plain_rust from crates/ot_substitution. Do not edit.

//! Whether a lookup of `GSUB` has a rule for some glyphs, which stand nowhere yet: shapers ask it, to learn which forms a font has.

use crate::font_tables::bytes::{table_at_16, tail, u16_at};
use crate::ot_contexts::context::{class_meanings, same_match_function, set_at};
use crate::ot_contexts::rule::{MatchFunction, MatchFunctions, Rule, coverage_rule, rule_in};
use crate::ot_layout::budget::Budget;
use crate::ot_layout::matcher::class_of;
use crate::ot_lookups::lookup_list::{Lookup, LookupList};
use crate::ot_lookups::lookup_props::covered_index;
use crate::ot_lookups::sets;
use crate::ot_lookups::subtable::Subtable;
use crate::ot_lookups::subtable_kind::{ContextFormat, SubtableKind};

/// What a lookup is asked for.
#[derive(Clone, Copy, Debug)]
struct Question<'a> {
    /// The lookups of the font.
    list: &'a LookupList<'a>,
    /// The glyphs, one after the other.
    glyphs: &'a [u32],
    /// Whether a rule that asks for glyphs before them or after them is none.
    wants_no_context: bool,
}

/// Whether a lookup has a rule for just these glyphs, one after the other (HarfBuzz,
/// `hb_ot_layout_lookup_would_substitute`). Where `wants_no_context` holds, a rule that asks for glyphs
/// before them or after them is none. Where the budget is spent there is no rule, and none for no
/// glyphs.
///
/// # Proved
///
/// ```text
/// ensures spent { IsNotMore budget.old budget.new }
/// ensures empty { glyphs.now ≡ [] → result ≡ false }
/// ensures first { lookup.now.first ≤ lookup.now.last → lookup.now.last ≤ length list.now.subtables.items
///     → begins_with (slice_range list.now.subtables.items lookup.now.first lookup.now.last) (slice_index glyphs.now 0) ≡ false
///     → result ≡ false }
/// ```
#[inline]
pub fn would_substitute<'a>(
    list: &'a LookupList<'a>,
    lookup: &Lookup,
    glyphs: &[u32],
    wants_no_context: bool,
    budget: &mut Budget,
) -> bool {
    let Some(first) = glyphs.first() else {
        return false;
    };
    if !lookup.digest.may_have(*first) || !lookup.firsts.may_have(*first) {
        return false;
    }
    let subtables = list.subtables_of(lookup);
    if !subtables
        .iter()
        .any(|subtable| covered_index(&subtable.coverage, *first).is_some())
    {
        return false;
    }
    let question = Question {
        list,
        glyphs,
        wants_no_context,
    };
    for subtable in subtables {
        if !budget.pay(1) {
            return false;
        }
        if subtable_would(subtable, &question, budget) {
            return true;
        }
    }
    false
}

/// Whether a subtable has a rule for these glyphs.
///
/// # Requires
///
/// - `0 < length question.now.glyphs.now`
fn subtable_would(subtable: &Subtable, question: &Question, budget: &mut Budget) -> bool {
    let glyphs = question.glyphs;
    match subtable.kind {
        SubtableKind::SingleSubstitution(_)
        | SubtableKind::MultipleSubstitution
        | SubtableKind::AlternateSubstitution
        | SubtableKind::ReverseSubstitution => {
            glyphs.len() == 1 && covered_index(&subtable.coverage, glyphs[0]).is_some()
        }
        SubtableKind::LigatureSubstitution => ligature_would(subtable, glyphs, budget),
        SubtableKind::Context(_) | SubtableKind::ChainedContext(_) => {
            context_would(subtable, question, budget)
        }
        _ => false,
    }
}

/// Whether a ligature is made of these glyphs.
///
/// # Requires
///
/// - `0 < length glyphs.now`
fn ligature_would(subtable: &Subtable, glyphs: &[u32], budget: &mut Budget) -> bool {
    debug_assert!(!glyphs.is_empty());
    let Some(index) = covered_index(&subtable.coverage, glyphs[0]) else {
        return false;
    };
    let set = sets::set_at(subtable.table, index);
    for number in 0..usize::from(u16_at(set, 0).unwrap_or(0)) {
        if !budget.pay(1) {
            return false;
        }
        if let Some(ligature) = table_at_16(set, 2 + 2 * number) {
            if is_made_of(ligature, glyphs) {
                return true;
            }
        }
    }
    false
}

/// Whether a ligature has these components. Mostly the second is another one.
fn is_made_of(ligature: &[u8], glyphs: &[u32]) -> bool {
    if has_other_second(ligature, glyphs) {
        return false;
    }
    let components = tail(ligature, 4);
    u16_at(ligature, 2).is_some_and(|count| usize::from(count) == glyphs.len())
        && glyphs.iter().skip(1).enumerate().all(|(number, glyph)| {
            u16_at(components, number.saturating_mul(2))
                .is_some_and(|component| u32::from(component) == *glyph)
        })
}

/// Whether the second component of a ligature is not the second of these glyphs.
fn has_other_second(ligature: &[u8], glyphs: &[u32]) -> bool {
    match (u16_at(ligature, 4), glyphs.get(1)) {
        (Some(own), Some(second)) => u32::from(own) != *second,
        _ => false,
    }
}

/// Whether a context has a rule for these glyphs.
///
/// # Requires
///
/// - `0 < length question.now.glyphs.now`
fn context_would(subtable: &Subtable, question: &Question, budget: &mut Budget) -> bool {
    let first = question.glyphs[0];
    let (set, match_functions) = match subtable.kind.as_context() {
        Some(ContextFormat::Glyphs) => (
            set_of_glyph(subtable, first),
            same_match_function(MatchFunction::Glyphs),
        ),
        Some(ContextFormat::Classes) => (set_of_class(subtable, first), class_meanings(subtable)),
        Some(ContextFormat::Coverages) => return coverages_would(subtable, question),
        None => return false,
    };
    let is_chained = subtable.kind.is_chained();
    set_would(set, &match_functions, is_chained, question, budget)
}

/// The set of rules of a context of glyphs that has those that begin with this glyph.
fn set_of_glyph<'a>(subtable: &Subtable<'a>, first: u32) -> Option<&'a [u8]> {
    let index = covered_index(&subtable.coverage, first)?;
    set_at(subtable.table, 4, index)
}

/// The set of rules of a context of classes that has those that begin with the class of this glyph.
fn set_of_class<'a>(subtable: &Subtable<'a>, first: u32) -> Option<&'a [u8]> {
    let class = class_of(&subtable.classes, first);
    let at = if subtable.kind.is_chained() { 10 } else { 6 };
    set_at(subtable.table, at, u32::from(class))
}

/// Whether the rule of a context of coverages is for these glyphs.
fn coverages_would(subtable: &Subtable, question: &Question) -> bool {
    let coverages = question.list.coverages_from(subtable, 0);
    coverage_rule(subtable.table, coverages, subtable.kind.is_chained())
        .is_some_and(|rule| is_for(&rule, question))
}

/// Whether a set has a rule for these glyphs.
fn set_would<'a>(
    set: Option<&'a [u8]>,
    match_functions: &MatchFunctions<'a>,
    is_chained: bool,
    question: &Question,
    budget: &mut Budget,
) -> bool {
    let Some(set) = set else {
        return false;
    };
    for number in 0..usize::from(u16_at(set, 0).unwrap_or(0)) {
        if !budget.pay(1) {
            return false;
        }
        if let Some(table) = table_at_16(set, 2 + 2 * number) {
            if let Some(rule) = rule_in(table, match_functions, is_chained) {
                if is_for(&rule, question) {
                    return true;
                }
            }
        }
    }
    false
}

/// Whether the input of a rule is just the glyphs.
fn is_for(rule: &Rule, question: &Question) -> bool {
    let glyphs = question.glyphs;
    if question.wants_no_context && (rule.backtrack.count != 0 || rule.lookahead.count != 0) {
        return false;
    }
    if usize::from(rule.input.count) + 1 != glyphs.len() {
        return false;
    }
    for number in 0..rule.input.count {
        let fits = match (
            rule.input.matcher(number),
            glyphs.get(usize::from(number) + 1),
        ) {
            (Some(matcher), Some(glyph)) => matcher.fits(*glyph),
            _ => false,
        };
        if !fits {
            return false;
        }
    }
    true
}
