// Written by tools/plain_rust from crates/font_tables. Do not edit.

//! Class definition tables: a class for each glyph (OpenType specification, "OpenType Layout Common Table Formats", "Class
//! Definition table").

use crate::common::GlyphId;
use crate::font_tables::bytes::u16_at;
use crate::font_tables::glyph_ranges::{Run, range_count, range_of, ranges_rise, run_from};
use crate::font_tables::rows::FEW_ROWS;

/// A class definition table.
///
/// By the specification ranges rise: the class is then found by bisection. Where they do not, it is found by a walk.
///
/// # Proved
///
/// ```text
/// ghost is_format: { format ≡ unwrap_or (number_16 table.now 0) 0 }
/// ghost ranges: { format ≡ 2 → count ≡ range_count table.now }
/// ghost ranges_rise: { IsTrue are_rising → format ≡ 2 → Rises (range_last table.now) count }
/// ```
#[derive(Clone, Copy, Debug)]
pub struct ClassDefinition<'a> {
    /// The bytes of the table.
    pub table: &'a [u8],
    format: u16,
    count: u16,
    are_rising: bool,
}

impl<'a> ClassDefinition<'a> {
    /// The class definition table in these bytes. One that is empty, or of another format than 1 and 2, has
    /// each glyph in class 0.
    ///
    /// # Proved
    ///
    /// ```text
    /// ensures { result.table.now ≡ table.now }
    /// ```
    #[inline]
    pub fn new(table: &'a [u8]) -> Self {
        let format = u16_at(table, 0).unwrap_or(0);
        if format == 2 {
            let count = range_count(table);
            let are_rising = ranges_rise(table, count);
            ClassDefinition {
                table,
                format,
                count,
                are_rising,
            }
        } else {
            ClassDefinition {
                table,
                format,
                count: 0,
                are_rising: false,
            }
        }
    }

    /// Whether a class is found soon: there are few ranges, or they rise, as the specification says.
    ///
    /// # Proved
    ///
    /// ```text
    /// ensures { IsTrue result → unwrap_or (number_16 self.now.table.now 0) 0 ≡ 2 → 64 < range_count self.now.table.now
    ///     → Rises (range_last self.now.table.now) (range_count self.now.table.now) }
    /// ```
    #[inline]
    pub fn is_quick(&self) -> bool {
        self.count <= FEW_ROWS || self.are_rising
    }

    /// The run of a glyph: itself and those behind it that have their classes of one range, or of none.
    pub(crate) fn run_from(&self, glyph: GlyphId) -> Run {
        match self.format {
            1 => Run {
                first: 0,
                end: u32::from(glyph.0) + 1,
                value: listed_class(self.table, glyph).unwrap_or(0),
            },
            2 => run_from(self.table, self.count, self.are_rising, glyph),
            _ => Run {
                first: 0,
                end: u32::MAX,
                value: 0,
            },
        }
    }

    /// The class of a glyph, which is 0 where the table names none.
    ///
    /// # Proved
    ///
    /// ```text
    /// ensures { result ≡ class_of self.now.table.now glyph.0 }
    /// ```
    #[inline]
    pub fn class(&self, glyph: GlyphId) -> u16 {
        match self.format {
            1 => listed_class(self.table, glyph).unwrap_or(0),
            2 => ranged_class(self.table, self.count, self.are_rising, glyph).unwrap_or(0),
            _ => 0,
        }
    }
}

/// The class of a glyph in a list of classes, those of a first glyph and the ones behind it.
fn listed_class(table: &[u8], glyph: GlyphId) -> Option<u16> {
    let first = u16_at(table, 2)?;
    let count = u16_at(table, 4)?;
    if first <= glyph.0 && glyph.0 - first < count {
        u16_at(table, 6 + 2 * usize::from(glyph.0 - first))
    } else {
        None
    }
}

/// The class of a glyph in ranges.
///
/// # Requires
///
/// - `counts: count ≡ range_count table.now`
/// - `rise: IsTrue are_rising → Rises (range_last table.now) count`
fn ranged_class(table: &[u8], count: u16, are_rising: bool, glyph: GlyphId) -> Option<u16> {
    range_of(table, count, are_rising, glyph).map(|range| range.value)
}
