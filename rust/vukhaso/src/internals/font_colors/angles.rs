// Written by tools/plain_rust from crates/font_colors. Do not edit.

//! Sines, cosines and tangents, of floats of 32 bits by way of 64: so they do not hang on a system's library.

#[cfg(not(any(test, feature = "std")))]
use crate::numbers::Round;
use crate::numbers::{nearest_f64_to_f32_with_nan, nearest_i64_to_f64};

/// The float that HarfBuzz has for π.
const PI: f32 = 3.1415927;

/// A quarter of a circle, by its first 33 bits.
const QUARTER: f64 = 1.5707963267341256;

/// The rest of a quarter.
const REST: f64 = 0.00000000006077100506506192;

/// The sine and the cosine of so many halves of a circle.
pub(crate) fn sine_and_cosine(halves: f32) -> (f32, f32) {
    let (sine, cosine) = wide_sine_and_cosine(f64::from(halves * PI));
    (
        nearest_f64_to_f32_with_nan(sine),
        nearest_f64_to_f32_with_nan(cosine),
    )
}

/// The tangent of so many halves of a circle.
pub(crate) fn tangent(halves: f32) -> f32 {
    let (sine, cosine) = wide_sine_and_cosine(f64::from(halves * PI));
    nearest_f64_to_f32_with_nan(sine / cosine)
}

/// The sine and the cosine of an angle: by what is left beside whole quarters of a circle.
fn wide_sine_and_cosine(angle: f64) -> (f64, f64) {
    let quarters = (angle / QUARTER + 0.5).floor();
    let rest = angle - quarters * QUARTER - quarters * REST;
    let quadrant = quarters - 4.0 * (quarters / 4.0).floor();
    turned(quadrant, near_sine(rest), near_cosine(rest))
}

/// The sine and the cosine of an angle in a quadrant, by those of what it has more than whole quarters
/// of a circle.
fn turned(quadrant: f64, sine: f64, cosine: f64) -> (f64, f64) {
    if quadrant == 0.0 {
        (sine, cosine)
    } else if quadrant == 1.0 {
        (cosine, -sine)
    } else if quadrant == 2.0 {
        (-sine, -cosine)
    } else {
        (-cosine, sine)
    }
}

/// The sine of at most an eighth of a circle.
fn near_sine(angle: f64) -> f64 {
    series(angle, angle, 2)
}

/// The cosine of at most an eighth of a circle.
fn near_cosine(angle: f64) -> f64 {
    series(angle, 1.0, 1)
}

/// The sum of nine terms of a series: each is the one before, times the square of the angle, through
/// two numbers in a row.
fn series(angle: f64, first: f64, from: u8) -> f64 {
    let square = angle * angle;
    let mut sum = first;
    let mut term = first;
    for step in 0..8u32 {
        let number = nearest_i64_to_f64(i64::from(u32::from(from) + 2 * step));
        term = -term * square / (number * (number + 1.0));
        sum += term;
    }
    sum
}
