// Written by tools/plain_rust from crates/font_cmap. Do not edit.

//! The lists that the segments of a subtable stand in (OpenType specification, `cmap`, "Format 4").

use crate::font_cmap::low_numbers::low_u16_at;
use crate::font_cmap::runs::{Beside, CodeRows};
use crate::font_tables::bytes::{tail, u16_at};
use core::cmp::Ordering;

/// The segments of a subtable, of which four lists have the ends, the starts, the deltas and the range offsets. Where these begin is
/// found once.
#[derive(Clone, Copy, Debug)]
pub(crate) struct Segments<'a> {
    /// The subtable, from its format on.
    pub(crate) table: &'a [u8],
    /// How many segments there are.
    pub(crate) count: u32,
    end_codes: &'a [u8],
    start_codes: &'a [u8],
    id_deltas: &'a [u8],
    id_range_offsets: &'a [u8],
}

impl<'a> Segments<'a> {
    /// The segments of a subtable.
    pub(crate) fn new(table: &'a [u8]) -> Self {
        let count = segment_count(table);
        let size = 2 * count as usize;
        let end_codes = tail(table, 14);
        let start_codes = tail(table, 16 + size);
        let id_deltas = tail(table, 16 + 2 * size);
        let id_range_offsets = tail(table, 16 + 3 * size);
        Segments {
            table,
            count,
            end_codes,
            start_codes,
            id_deltas,
            id_range_offsets,
        }
    }

    /// The last code of a segment.
    #[inline(always)]
    pub(crate) fn end_code(&self, row: u32) -> Option<u16> {
        low_u16_at(self.end_codes, 2 * row as usize)
    }

    /// The first code of a segment.
    #[inline(always)]
    pub(crate) fn start_code(&self, row: u32) -> Option<u16> {
        low_u16_at(self.start_codes, 2 * row as usize)
    }

    /// What is added to the codes of a segment, or to its glyphs.
    #[inline(always)]
    pub(crate) fn id_delta(&self, row: u32) -> Option<u16> {
        low_u16_at(self.id_deltas, 2 * row as usize)
    }

    /// The number at a place of the range offsets and of the glyphs that stand behind them.
    ///
    /// # Requires
    ///
    /// - `place < 2 ^ 40`
    #[inline(always)]
    pub(crate) fn id_range_offset(&self, place: usize) -> Option<u16> {
        low_u16_at(self.id_range_offsets, 2 * place)
    }
}

///
/// # Proved
///
/// ```text
/// ghost place_of = { λ segments code row. beside_segment segments.table.now code row }
/// ```
impl CodeRows for Segments<'_> {
    #[inline(always)]
    fn beside_run(&self, code: u32, row: u32) -> Beside {
        let order = None;
        let Some(end) = self.end_code(row) else {
            return Beside {
                order,
                last: u32::MAX,
            };
        };
        let end = u32::from(end);
        if end < code {
            return Beside {
                order: Some(Ordering::Greater),
                last: u32::MAX,
            };
        }
        match self.start_code(row) {
            None => Beside { order, last: end },
            Some(start) if code < u32::from(start) => Beside {
                order: Some(Ordering::Less),
                last: end.min(u32::from(start) - 1),
            },
            Some(_) => Beside {
                order: Some(Ordering::Equal),
                last: end,
            },
        }
    }
}

/// How many segments there are: the table has twice that number.
fn segment_count(table: &[u8]) -> u32 {
    u32::from(u16_at(table, 6).unwrap_or(0)) / 2
}
