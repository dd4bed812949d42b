// Written by tools/plain_rust from crates/font_variations. Do not edit.

//! Parts of the space of variations in which the deltas of a tuple hold, and how much of them holds at a place (OpenType specification,
//! "OpenType Font Variations Common Table Formats", "Algorithm for interpolation of instance values").

use crate::font_tables::bytes::i16_at;
use crate::font_variations::regions::{coordinate, is_at_peak, is_disordered};
use crate::numbers::{nearest_f64_to_f32_with_nan, nearest_i64_to_f64};

/// The tuples of coordinates of a part of the space of variations.
#[derive(Clone, Copy, Debug)]
pub struct Tent<'a> {
    /// Where the deltas hold in full.
    pub peaks: &'a [u8],
    /// Where they begin to hold, and behind that where they end, where that is said.
    pub ends: Option<&'a [u8]>,
    /// How many coordinates each tuple has.
    pub axis_count: u16,
}

impl Tent<'_> {
    /// How much of the deltas holds at these coordinates: the product over all axes.
    ///
    /// # Proved
    ///
    /// ```text
    /// ensures { result ≡ scalar self.now.peaks.now (option_copied self.now.ends) self.now.axis_count coordinates.now }
    /// ```
    #[inline]
    pub fn scalar(&self, coordinates: &[i32]) -> f32 {
        let mut scalar = 1.0;
        for axis in 0..self.axis_count {
            let factor = self.factor(coordinates, axis);
            if factor == 0.0 {
                return 0.0;
            }
            scalar *= factor;
        }
        nearest_f64_to_f32_with_nan(scalar)
    }

    /// How much of the deltas an axis leaves.
    fn factor(&self, coordinates: &[i32], axis: u16) -> f64 {
        self.axis_factor(axis, coordinate(coordinates, usize::from(axis)))
    }

    /// How much of the deltas an axis leaves at a coordinate.
    fn axis_factor(&self, axis: u16, coordinate: i32) -> f64 {
        let axis = usize::from(axis);
        let peak = number(self.peaks, axis);
        if is_at_peak(i32::from(peak), coordinate) {
            return 1.0;
        }
        match self.ends {
            Some(ends) => {
                let start = number(ends, axis);
                let end = number(ends, usize::from(self.axis_count) + axis);
                factor_between(start, peak, end, coordinate)
            }
            None => factor_to(peak, coordinate),
        }
    }
}

/// The coordinate of an axis in tuples.
///
/// # Requires
///
/// - `axis < 2 ^ 17`
fn number(tuples: &[u8], axis: usize) -> i16 {
    i16_at(tuples, 2 * axis).unwrap_or(0)
}

/// How much of the deltas an axis leaves at a coordinate, where only its peak is said: evenly from the
/// default up to the peak.
fn factor_to(peak: i16, coordinate: i32) -> f64 {
    let peak = i32::from(peak);
    if is_beyond(peak, coordinate) {
        0.0
    } else {
        double(coordinate) / double(peak)
    }
}

/// Whether a coordinate does not lie between the default and the peak of an axis, or is the default.
fn is_beyond(peak: i32, coordinate: i32) -> bool {
    coordinate == 0 || coordinate < peak.min(0) || coordinate > peak.max(0)
}

/// The same, between where the deltas begin and end to hold. Numbers out of order leave all.
fn factor_between(start: i16, peak: i16, end: i16, coordinate: i32) -> f64 {
    if is_disordered(i32::from(start), i32::from(peak), i32::from(end)) {
        1.0
    } else if is_outside(i32::from(start), i32::from(end), coordinate) {
        0.0
    } else {
        slope(start, peak, end, coordinate)
    }
}

/// Whether a coordinate lies before the start or behind the end of an axis.
fn is_outside(start: i32, end: i32, coordinate: i32) -> bool {
    coordinate < start || end < coordinate
}

/// Evenly up to the peak and down from it.
///
/// # Requires
///
/// - `is_outside start end coordinate ≡ false`
fn slope(start: i16, peak: i16, end: i16, coordinate: i32) -> f64 {
    let (start, peak, end) = (i32::from(start), i32::from(peak), i32::from(end));
    if coordinate < peak {
        double(coordinate - start) / double(peak - start)
    } else {
        double(end - coordinate) / double(end - peak)
    }
}

/// The float of 64 bits of a whole number.
fn double(number: i32) -> f64 {
    nearest_i64_to_f64(i64::from(number))
}
