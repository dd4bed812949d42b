// Written by tools/plain_rust from crates/ot_contexts. Do not edit.

//! The glyphs after the cursor, looked at once for many rules (HarfBuzz, `RuleSet`, `ChainRuleSet`, `LigatureSet`).

use crate::glyph::hb_glyph_info_t;
use crate::ot_contexts::rule::{Rule, Sequence};
use crate::ot_layout::matcher::Matcher;
use crate::ot_layout::search::ApplyContext;
use crate::ot_layout::skipping_iterator::{Found, Skip, SkippingIterator};

/// A glyph after the cursor.
#[derive(Clone, Copy, Debug)]
pub struct Next {
    /// The glyph.
    pub glyph: u32,
    /// The place after it.
    pub end: usize,
}

impl Next {
    /// Whether a glyph stands there.
    ///
    /// # Proved
    ///
    /// That it returns.
    #[inline]
    pub fn is_there(&self) -> bool {
        self.glyph != NO_GLYPH
    }
}

/// The glyphs after the cursor, looked at once for many rules.
#[derive(Clone, Copy, Debug)]
pub enum Neighbours {
    /// They were not looked at.
    Unseen,
    /// There is none.
    Absent,
    /// The next glyph, and the one after it, if it counts.
    Seen(Next, Option<Next>),
}

/// How far the glyphs were looked at for rules that were not tried.
#[derive(Clone, Copy, Debug)]
pub struct Beyond {
    /// Where they end; 0 where none was looked at.
    pub to: usize,
}

impl Beyond {
    /// Before the first rule. HarfBuzz has seen the next glyph by then, where the rules have no context.
    ///
    /// # Proved
    ///
    /// That it returns.
    #[inline]
    pub fn new(neighbours: &Neighbours, is_chained: bool) -> Self {
        match *neighbours {
            Neighbours::Seen(next, _) if !is_chained => Beyond { to: next.end },
            _ => Beyond { to: 0 },
        }
    }
}

/// Whether HarfBuzz looks at the next two glyphs before it tries the rules of a set of so many: of more
/// than four, and of chained rules where joiners are passed over both in the input and around it.
///
/// # Proved
///
/// ```text
/// ensures { result ≡ looks_first ctx.now is_chained count }
/// ```
#[inline]
pub fn looks_first(count: usize, is_chained: bool, ctx: &ApplyContext) -> bool {
    count > 4 && (!is_chained || ctx.context.ignores_zwnj && ctx.iterator.ignores_zwj)
}

/// The glyphs after the cursor, looked at for a set of so many rules.
///
/// # Requires
///
/// - `0 < length ctx.now.input.now`
///
/// # Proved
///
/// ```text
/// ensures { (p : Pattern) → may_fit result p ≡ (not (looks_first ctx.now is_chained count) || fits_next ctx.now p) }
/// ```
#[inline]
pub fn seen_ahead(count: usize, is_chained: bool, ctx: &ApplyContext) -> Neighbours {
    if !looks_first(count, is_chained, ctx) {
        return Neighbours::Unseen;
    }
    let iterator = ctx.input_iterator();
    let Found::At(first) = iterator.next(&Matcher::Any, ctx.input, 0) else {
        return Neighbours::Absent;
    };
    if iterator.skip(&ctx.input[first]) != Skip::No {
        return Neighbours::Unseen;
    }
    let next = Next {
        glyph: ctx.input[first].glyph_id,
        end: first + 1,
    };
    Neighbours::Seen(next, next_kept(&iterator, ctx.input, first))
}

/// The next glyph after a place, if it counts whatever is asked for.
///
/// # Requires
///
/// - `place < length glyphs.now`
///
/// # Proved
///
/// ```text
/// ensures next { IfSome result (IsNext iterator.now glyphs.now place) }
/// ensures is { result ≡ next_counted iterator.now glyphs.now place }
/// ```
#[inline]
pub fn next_kept(
    iterator: &SkippingIterator,
    glyphs: &[hb_glyph_info_t],
    place: usize,
) -> Option<Next> {
    debug_assert!(place < glyphs.len());
    if let Some(next) = next_beside(iterator, glyphs, place) {
        return Some(next);
    }
    let Found::At(next) = iterator.next(&Matcher::Any, glyphs, place) else {
        return None;
    };
    if iterator.skip(&glyphs[next]) != Skip::No {
        return None;
    }
    Some(Next {
        glyph: glyphs[next].glyph_id,
        end: next + 1,
    })
}

/// The glyph right after a place, if it counts whatever is asked for.
///
/// # Requires
///
/// - `place < length glyphs.now`
fn next_beside(
    iterator: &SkippingIterator,
    glyphs: &[hb_glyph_info_t],
    place: usize,
) -> Option<Next> {
    debug_assert!(place < glyphs.len());
    if place + 1 >= glyphs.len() {
        return None;
    }
    let beside = &glyphs[place + 1];
    if iterator.skip(beside) != Skip::No || !iterator.is_within(beside) {
        return None;
    }
    Some(Next {
        glyph: beside.glyph_id,
        end: place + 2,
    })
}

/// No glyph of a font has this number.
pub const NO_GLYPH: u32 = u32::MAX;

/// The next glyph after a place, if it counts whatever is asked for; after the last place a glyph that
/// nobody asks for.
///
/// # Requires
///
/// - `place < length glyphs.now`
///
/// # Proved
///
/// ```text
/// ensures { IfSome result (IsNext iterator.now glyphs.now place) }
/// ```
#[inline]
pub fn next_seen(
    iterator: &SkippingIterator,
    glyphs: &[hb_glyph_info_t],
    place: usize,
) -> Option<Next> {
    debug_assert!(place < glyphs.len());
    if place + 1 == glyphs.len() {
        return Some(Next {
            glyph: NO_GLYPH,
            end: glyphs.len(),
        });
    }
    next_kept(iterator, glyphs, place)
}

/// Whether a rule may fit, by the next two glyphs.
///
/// # Proved
///
/// ```text
/// ensures { result ≡ may_fit neighbours.now (pattern_of rule.now) }
/// ```
#[inline]
pub fn may_fit(rule: &Rule, neighbours: &Neighbours, beyond: &mut Beyond) -> bool {
    match *neighbours {
        Neighbours::Unseen => true,
        Neighbours::Absent => rule.input.count == 0 && rule.lookahead.count == 0,
        Neighbours::Seen(first, second) => {
            if !fits_at(rule, 0, first.glyph) {
                if beyond.to == 0 {
                    beyond.to = first.end;
                }
                return false;
            }
            let Some(second) = second else {
                return true;
            };
            if fits_at(rule, 1, second.glyph) {
                return true;
            }
            beyond.to = second.end;
            false
        }
    }
}

/// Whether a glyph is what a rule asks for at this number after the cursor, if it asks for anything
/// there.
fn fits_at(rule: &Rule, number: u16, glyph: u32) -> bool {
    if number < rule.input.count {
        return asks_for(&rule.input, number, glyph);
    }
    let number = number - rule.input.count;
    number >= rule.lookahead.count || asks_for(&rule.lookahead, number, glyph)
}

/// Whether a glyph is what a part asks for.
fn asks_for(part: &Sequence, number: u16, glyph: u32) -> bool {
    match part.matcher(number) {
        Some(matcher) => matcher.fits(glyph),
        None => false,
    }
}
