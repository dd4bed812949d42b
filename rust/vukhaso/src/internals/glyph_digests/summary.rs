// Written by tools/plain_rust from crates/glyph_digests. Do not edit.

//! What tells at once of most glyphs that a coverage does not have them.

use crate::font_tables::bytes::{part, u16_at};
use crate::font_tables::coverage::Coverage;
use crate::font_tables::rows::rows_within;
use crate::numbers::Chunks;

/// A summary of a set of glyphs. It may have glyphs that were never added, and has each glyph that was.
///
/// # Proved
///
/// ```text
/// ghost has: { Self → ℕ → Bool }
/// ```
pub trait Summary: Sized {
    /// The summary of no glyph.
    ///
    /// # Proved
    ///
    /// That it returns.
    fn none() -> Self;

    /// Adds a glyph.
    ///
    /// # Proved
    ///
    /// ```text
    /// ensures added { has self.new glyph ≡ true }
    /// ensures kept { (other : ℕ) → has self.old other ≡ true → has self.new other ≡ true }
    /// ```
    fn add_glyph(&mut self, glyph: u32);

    /// Adds the glyphs from one to another, the last one too.
    ///
    /// # Proved
    ///
    /// ```text
    /// ensures added { (glyph : ℕ) → first ≤ glyph → glyph ≤ last → has self.new glyph ≡ true }
    /// ensures kept { (glyph : ℕ) → has self.old glyph ≡ true → has self.new glyph ≡ true }
    /// ```
    fn add_range(&mut self, first: u32, last: u32);
}

/// The summary of the glyphs that a coverage covers.
///
/// # Proved
///
/// ```text
/// ensures { (glyph : ℕ) → is_some (covered_index coverage.now.table.now glyph) ≡ true → S.has result glyph ≡ true }
/// ```
#[inline(always)]
pub fn summary_of<S: Summary>(coverage: &Coverage) -> S {
    let format = format_of(coverage.table);
    if format == 1 {
        of_list(coverage.table)
    } else if format == 2 {
        of_ranges(coverage.table)
    } else {
        S::none()
    }
}

/// The format of a table.
pub(crate) fn format_of(table: &[u8]) -> u16 {
    u16_at(table, 0).unwrap_or(0)
}

/// How many rows of this size the table has.
///
/// # Requires
///
/// - `0 < size`
pub(crate) fn row_count(table: &[u8], size: usize) -> usize {
    debug_assert!(0 < size);
    let declared = u16_at(table, 2).unwrap_or(0);
    rows_within(table, 4, size, usize::from(declared))
}

/// The summary of the glyphs of a coverage that lists them.
#[inline(always)]
fn of_list<S: Summary>(table: &[u8]) -> S {
    let mut summary = S::none();
    let (glyphs, _) = Chunks::<2>::split(part(table, 4, 2 * row_count(table, 2)));
    for glyph in glyphs {
        if let Some(glyph) = u16_at(glyph, 0) {
            summary.add_glyph(u32::from(glyph));
        }
    }
    summary
}

/// The summary of the glyphs of a coverage of ranges.
#[inline(always)]
fn of_ranges<S: Summary>(table: &[u8]) -> S {
    let mut summary = S::none();
    let (ranges, _) = Chunks::<6>::split(part(table, 4, 6 * row_count(table, 6)));
    for range in ranges {
        add_row(&mut summary, range);
    }
    summary
}

/// Adds the glyphs of a range of a coverage.
#[inline(always)]
fn add_row<S: Summary>(summary: &mut S, range: &[u8]) {
    if let (Some(first), Some(last)) = (u16_at(range, 0), u16_at(range, 2)) {
        summary.add_range(u32::from(first), u32::from(last));
    }
}
