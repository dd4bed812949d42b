// Written by tools/plain_rust from crates/ot_contexts. Do not edit.

//! What a rule asks of the next glyphs after the cursor, read from its bytes without the rest of it.

use crate::font_tables::bytes::u16_at;
use crate::ot_lookups::subtable::MAX_CONTEXT_LENGTH;

/// The number that a rule asks for.
#[derive(Clone, Copy, Debug)]
pub enum Asked {
    /// That of a glyph of its input.
    Input(u16),
    /// That of a glyph after its input.
    Lookahead(u16),
}

/// What the rule in these bytes asks of the glyph of this number after the cursor; `None` where it asks
/// for nothing there, its input is too long for a match, or it is cut short.
///
/// # Requires
///
/// - `number < 2`
///
/// # Proved
///
/// ```text
/// ensures { result ≡ asked_at is_chained table.now number }
/// ```
#[inline(always)]
pub fn asked_at(table: &[u8], is_chained: bool, number: usize) -> Option<Asked> {
    debug_assert!(number < 2);
    if is_chained {
        chained_asked(table, number)
    } else {
        plain_asked(table, number)
    }
}

/// What the rule in these bytes asks of the glyph after the cursor, where its first bytes tell that:
/// they are read at once.
///
/// # Proved
///
/// ```text
/// ensures { IfSome result (λ asked. asked_at is_chained table.now 0 ≡ Some asked) }
/// ```
#[inline(always)]
pub fn asked_next(table: &[u8], is_chained: bool) -> Option<Asked> {
    if is_chained {
        chained_next(table)
    } else {
        plain_next(table)
    }
}

/// What a rule without context asks of the next glyph.
#[inline(always)]
fn plain_next(table: &[u8]) -> Option<Asked> {
    let (input, _records, asked) = three_at(table, 0)?;
    if 1 < input && usize::from(input) <= MAX_CONTEXT_LENGTH {
        Some(Asked::Input(asked))
    } else {
        None
    }
}

/// What a rule with context asks of the next glyph.
#[inline(always)]
fn chained_next(table: &[u8]) -> Option<Asked> {
    let input_at = 2 + 2 * usize::from(u16_at(table, 0)?);
    let (input, second, third) = three_at(table, input_at)?;
    if 1 < input {
        if usize::from(input) <= MAX_CONTEXT_LENGTH {
            Some(Asked::Input(second))
        } else {
            None
        }
    } else if 0 < second {
        Some(Asked::Lookahead(third))
    } else {
        None
    }
}

/// The three numbers of 16 bits from a place on.
#[inline(always)]
fn three_at(table: &[u8], at: usize) -> Option<(u16, u16, u16)> {
    match table.get(at..)? {
        [a, b, c, d, e, f, ..] => {
            let first = u16::from(*a) * 256 + u16::from(*b);
            let second = u16::from(*c) * 256 + u16::from(*d);
            let third = u16::from(*e) * 256 + u16::from(*f);
            Some((first, second, third))
        }
        _ => None,
    }
}

/// What a rule without context asks for.
///
/// # Requires
///
/// - `number < 2`
#[inline(always)]
fn plain_asked(table: &[u8], number: usize) -> Option<Asked> {
    debug_assert!(number < 2);
    let input = usize::from(u16_at(table, 0)?.saturating_sub(1));
    if number < input && input < MAX_CONTEXT_LENGTH {
        Some(Asked::Input(u16_at(table, 4 + 2 * number)?))
    } else {
        None
    }
}

/// What a rule with context asks for.
///
/// # Requires
///
/// - `number < 2`
#[inline(always)]
fn chained_asked(table: &[u8], number: usize) -> Option<Asked> {
    debug_assert!(number < 2);
    let input_at = 2 + 2 * usize::from(u16_at(table, 0)?);
    let input = usize::from(u16_at(table, input_at)?.saturating_sub(1));
    if number >= input {
        return asked_lookahead(table, input_at + 2 + 2 * input, number - input);
    }
    if input < MAX_CONTEXT_LENGTH {
        Some(Asked::Input(u16_at(table, input_at + 2 + 2 * number)?))
    } else {
        None
    }
}

/// What it asks for after its input, where the count of that stands at this place.
///
/// # Requires
///
/// - `near: at < 1000000`
/// - `few: number < 2`
#[inline(always)]
fn asked_lookahead(table: &[u8], at: usize, number: usize) -> Option<Asked> {
    debug_assert!(at < 1000000);
    debug_assert!(number < 2);
    if number < usize::from(u16_at(table, at)?) {
        Some(Asked::Lookahead(u16_at(table, at + 2 + 2 * number)?))
    } else {
        None
    }
}
