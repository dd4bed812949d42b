// Written by tools/plain_rust from crates/font_tables. Do not edit.

//! Ranges of glyphs, each with a value, as coverage tables and class definitions of format 2 have them: six bytes each,
//! from the byte 4 on.

use crate::common::GlyphId;
use crate::font_tables::bytes::{part, tail, u16_at};
use crate::font_tables::rows::{Rows, SHORT, first_row, rows_within};
use crate::numbers::Chunks;

/// Ranges that lie whole in the table.
#[derive(Clone, Copy, Debug)]
struct Ranges<'a>(Chunks<'a, 6>);

///
/// # Proved
///
/// ```text
/// ghost last_of = { λ ranges row. option_and_then (λ range. number_16 range 2) (slice_get ranges.0.now row) }
/// ```
impl Rows for Ranges<'_> {
    fn last(&self, row: usize) -> Option<u32> {
        u16_at(self.0.get(row)?, 2).map(u32::from)
    }
}

/// How many of the ranges lie in the table.
pub(crate) fn range_count(table: &[u8]) -> u16 {
    let declared = u16_at(table, 2).unwrap_or(0);
    rows_within(table, 4, 6, usize::from(declared)) as u16
}

/// Whether the last glyphs of the ranges rise.
///
/// # Requires
///
/// - `count ≡ range_count table.now`
pub(crate) fn ranges_rise(table: &[u8], count: u16) -> bool {
    if count <= SHORT {
        return false;
    }
    let (ranges, _) = Chunks::<6>::split(part(table, 4, 6 * usize::from(count)));
    let mut before = 0;
    let mut falls = false;
    for range in ranges {
        match u16_at(range, 2) {
            Some(last) => {
                falls |= last < before;
                before = last;
            }
            None => falls = true,
        }
    }
    !falls
}

/// The first range that does not end before a glyph.
///
/// # Requires
///
/// - `counts: count ≡ range_count table.now`
/// - `rise: IsTrue are_rising → Rises (range_last table.now) count`
fn first_range(table: &[u8], count: u16, are_rising: bool, glyph: GlyphId) -> Option<usize> {
    let (ranges, _) = Chunks::<6>::split(tail(table, 4));
    first_row(
        &Ranges(ranges),
        usize::from(count),
        u32::from(glyph.0),
        are_rising,
    )
}

/// A range: its first glyph, and its value.
#[derive(Clone, Copy, Debug)]
pub(crate) struct Range {
    pub(crate) first: u16,
    pub(crate) value: u16,
}

/// The number at a byte of a range.
///
/// # Requires
///
/// - `row: row < range_count table.now`
/// - `place: place ≤ 4`
fn number_of(table: &[u8], row: usize, place: usize) -> Option<u16> {
    debug_assert!(place <= 4);
    let (ranges, _) = Chunks::<6>::split(tail(table, 4));
    u16_at(&ranges[row], place)
}

/// The range with a number.
///
/// # Requires
///
/// - `row < range_count table.now`
fn range_at(table: &[u8], row: usize) -> Option<Range> {
    let first = number_of(table, row, 0)?;
    let value = number_of(table, row, 4)?;
    Some(Range { first, value })
}

/// The range that holds a glyph.
///
/// # Requires
///
/// - `counts: count ≡ range_count table.now`
/// - `rise: IsTrue are_rising → Rises (range_last table.now) count`
pub(crate) fn range_of(
    table: &[u8],
    count: u16,
    are_rising: bool,
    glyph: GlyphId,
) -> Option<Range> {
    let row = first_range(table, count, are_rising, glyph)?;
    let range = range_at(table, row)?;
    if range.first <= glyph.0 {
        Some(range)
    } else {
        None
    }
}

/// The glyphs from one on that one range has, or none: all below `end` have the value, but for those before `first`, which have 0.
#[derive(Clone, Copy, Debug)]
pub(crate) struct Run {
    pub(crate) first: u32,
    pub(crate) end: u32,
    pub(crate) value: u16,
}

impl Run {
    /// The value of a glyph before the end.
    pub(crate) fn value_of(&self, glyph: u32) -> u16 {
        if self.first <= glyph { self.value } else { 0 }
    }
}

/// The run of a glyph.
///
/// # Requires
///
/// - `counts: count ≡ range_count table.now`
/// - `rise: IsTrue are_rising → Rises (range_last table.now) count`
pub(crate) fn run_from(table: &[u8], count: u16, are_rising: bool, glyph: GlyphId) -> Run {
    match first_range(table, count, are_rising, glyph) {
        Some(row) => run_of(table, row),
        None => Run {
            first: 0,
            end: u32::MAX,
            value: 0,
        },
    }
}

/// The run of the glyphs of a range, and of those before it.
///
/// # Requires
///
/// - `row < range_count table.now`
fn run_of(table: &[u8], row: usize) -> Run {
    let first = match number_of(table, row, 0) {
        Some(first) => u32::from(first),
        None => u32::MAX,
    };
    Run {
        first,
        end: u32::from(number_of(table, row, 2).unwrap_or(0)) + 1,
        value: number_of(table, row, 4).unwrap_or(0),
    }
}
