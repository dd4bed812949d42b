// Written by tools/plain_rust from crates/ot_contexts. Do not edit.

//! The rules of contexts: what they ask of the glyphs at the cursor, before them and after them.

use crate::font_tables::bytes::{tail, u16_at};
use crate::font_tables::class_definition::ClassDefinition;
use crate::font_tables::coverage::Coverage;
use crate::ot_layout::matcher::Matcher;

/// What the numbers of a rule say of glyphs.
#[derive(Clone, Copy, Debug)]
pub enum MatchFunction<'a> {
    /// A number is that of the glyph.
    Glyphs,
    /// A number is that of the glyph's class.
    Classes(ClassDefinition<'a>),
    /// The glyphs are covered, each by a coverage of its own.
    Coverages(&'a [Coverage<'a>]),
}

/// What is asked of glyphs that follow one another.
#[derive(Clone, Copy, Debug)]
pub struct Sequence<'a> {
    /// What the numbers say.
    pub match_function: MatchFunction<'a>,
    /// The numbers, of 16 bits each.
    pub numbers: &'a [u8],
    /// How many glyphs there are.
    pub count: u16,
}

impl<'a> Sequence<'a> {
    /// What is asked of the glyph of this number; `None` where the table is cut short.
    ///
    /// # Proved
    ///
    /// ```text
    /// ensures { result ≡ sequence_matcher self.now index }
    /// ```
    #[inline]
    pub fn matcher(&self, index: u16) -> Option<Matcher<'a>> {
        match self.match_function {
            MatchFunction::Glyphs => Some(Matcher::Glyph(u16_at(
                self.numbers,
                usize::from(index) * 2,
            )?)),
            MatchFunction::Classes(classes) => Some(Matcher::Class(
                classes,
                u16_at(self.numbers, usize::from(index) * 2)?,
            )),
            MatchFunction::Coverages(coverages) => {
                Some(Matcher::Covered(*coverages.get(usize::from(index))?))
            }
        }
    }
}

/// The meanings of the three parts of a rule.
#[derive(Clone, Copy, Debug)]
pub struct MatchFunctions<'a> {
    pub backtrack: MatchFunction<'a>,
    pub input: MatchFunction<'a>,
    pub lookahead: MatchFunction<'a>,
}

/// A rule. The first glyph of its input is that at the cursor, and is not asked for again.
#[derive(Clone, Copy, Debug)]
pub struct Rule<'a> {
    /// The glyphs before the cursor, the nearest first.
    pub backtrack: Sequence<'a>,
    /// The glyphs of the input after the first.
    pub input: Sequence<'a>,
    /// The glyphs after the input.
    pub lookahead: Sequence<'a>,
    /// How many lookups are applied.
    pub record_count: u16,
    /// The records of the lookups that are applied.
    pub records: &'a [u8],
}

/// Glyphs of which nothing is asked: there are none.
fn no_sequence<'a>() -> Sequence<'a> {
    Sequence {
        match_function: MatchFunction::Glyphs,
        numbers: &[],
        count: 0,
    }
}

/// The rule in these bytes; `None` where they are cut short.
///
/// # Proved
///
/// ```text
/// ensures { option_map pattern_of result ≡ rule_pattern is_chained match_functions.now table.now }
/// ```
#[inline]
pub fn rule_in<'a>(
    table: &'a [u8],
    match_functions: &MatchFunctions<'a>,
    is_chained: bool,
) -> Option<Rule<'a>> {
    if is_chained {
        chained_rule(table, match_functions)
    } else {
        plain_rule(table, match_functions.input)
    }
}

/// A rule without context.
fn plain_rule<'a>(table: &'a [u8], match_function: MatchFunction<'a>) -> Option<Rule<'a>> {
    let count = u16_at(table, 0)?.saturating_sub(1);
    Some(Rule {
        backtrack: no_sequence(),
        input: Sequence {
            match_function,
            numbers: tail(table, 4),
            count,
        },
        lookahead: no_sequence(),
        record_count: u16_at(table, 2)?,
        records: tail(table, 4 + 2 * usize::from(count)),
    })
}

/// A rule with glyphs before and after its input.
fn chained_rule<'a>(table: &'a [u8], match_functions: &MatchFunctions<'a>) -> Option<Rule<'a>> {
    let backtrack = u16_at(table, 0)?;
    let input_at = 2 + 2 * usize::from(backtrack);
    let input = u16_at(table, input_at)?.saturating_sub(1);
    let lookahead_at = input_at + 2 + 2 * usize::from(input);
    let lookahead = u16_at(table, lookahead_at)?;
    let records_at = lookahead_at + 2 + 2 * usize::from(lookahead);
    Some(Rule {
        backtrack: Sequence {
            match_function: match_functions.backtrack,
            numbers: tail(table, 2),
            count: backtrack,
        },
        input: Sequence {
            match_function: match_functions.input,
            numbers: tail(table, input_at + 2),
            count: input,
        },
        lookahead: Sequence {
            match_function: match_functions.lookahead,
            numbers: tail(table, lookahead_at + 2),
            count: lookahead,
        },
        record_count: u16_at(table, records_at)?,
        records: tail(table, records_at + 2),
    })
}

/// So many coverages of a list from a place on, or as many as there are from there on.
///
/// # Proved
///
/// ```text
/// ensures count { result.count ≡ count }
/// ensures asks { sequence_matcher result ≡ covered_by (drop at coverages.now) }
/// ```
#[inline(always)]
pub fn coverages_at<'a>(coverages: &'a [Coverage<'a>], at: usize, count: u16) -> Sequence<'a> {
    Sequence {
        match_function: MatchFunction::Coverages(if at < coverages.len() {
            &coverages[at..]
        } else {
            &[]
        }),
        numbers: &[],
        count,
    }
}

/// The rule of a context by coverages.
///
/// # Proved
///
/// ```text
/// ensures { option_map pattern_of result ≡ covered_pattern is_chained coverages.now table.now }
/// ```
#[inline(always)]
pub fn coverage_rule<'a>(
    table: &'a [u8],
    coverages: &'a [Coverage<'a>],
    is_chained: bool,
) -> Option<Rule<'a>> {
    if is_chained {
        return chained_coverage_rule(table, coverages);
    }
    let count = u16_at(table, 2)?;
    Some(Rule {
        backtrack: no_sequence(),
        input: coverages_at(coverages, 1, count.saturating_sub(1)),
        lookahead: no_sequence(),
        record_count: u16_at(table, 4)?,
        records: tail(table, 6 + 2 * usize::from(count)),
    })
}

/// The rule of a chained context by coverages.
fn chained_coverage_rule<'a>(table: &'a [u8], coverages: &'a [Coverage<'a>]) -> Option<Rule<'a>> {
    let backtrack = u16_at(table, 2)?;
    let input_at = 4 + 2 * usize::from(backtrack);
    let input = u16_at(table, input_at)?;
    let lookahead_at = input_at + 2 + 2 * usize::from(input);
    let lookahead = u16_at(table, lookahead_at)?;
    let records_at = lookahead_at + 2 + 2 * usize::from(lookahead);
    let first = usize::from(backtrack);
    Some(Rule {
        backtrack: coverages_at(coverages, 0, backtrack),
        input: coverages_at(coverages, first + 1, input.saturating_sub(1)),
        lookahead: coverages_at(coverages, first + usize::from(input), lookahead),
        record_count: u16_at(table, records_at)?,
        records: tail(table, records_at + 2),
    })
}
