// Written by tools/plain_rust from crates/font_colors. Do not edit.

//! The numbers of a paint, with their deltas (OpenType specification, "COLR - Color Table", "Paint tables").

use crate::font_colors::colr::ColrTable;
use crate::font_tables::bytes::{i16_at, u32_at};
use crate::font_variations::rounding::float;
use crate::numbers::ToSigned;

/// The numbers of a paint, and where they vary.
#[derive(Clone, Copy, Debug)]
pub(crate) struct PaintValues<'p> {
    /// The table that has the deltas.
    pub colr: &'p ColrTable<'p>,
    /// The place in the variations.
    pub coordinates: &'p [i32],
    /// The bytes of the paint.
    pub paint: &'p [u8],
    /// The number of the first delta set.
    pub first: u32,
}

impl PaintValues<'_> {
    /// A number of font units, by its place among the paint's numbers.
    pub(crate) fn distance(&self, place: u8) -> f32 {
        let number = i16_at(self.paint, 4 + 2 * usize::from(place)).unwrap_or(0);
        float(i32::from(number)) + self.delta(place)
    }

    /// A number of 16,384ths.
    pub(crate) fn ratio(&self, place: u8) -> f32 {
        self.distance(place) / 16384.0
    }

    /// A number of a matrix, in 65,536ths.
    pub(crate) fn factor(&self, place: u8) -> f32 {
        let number = u32_at(self.paint, 4 * usize::from(place))
            .unwrap_or(0)
            .to_signed();
        (float(number) + self.delta(place)) / 65536.0
    }

    /// The delta of a number.
    fn delta(&self, place: u8) -> f32 {
        self.colr.delta(self.first, place, self.coordinates)
    }
}
