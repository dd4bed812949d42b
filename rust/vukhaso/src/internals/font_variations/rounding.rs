// Written by tools/plain_rust from crates/font_variations. Do not edit.

//! Floats of whole numbers, whole numbers of floats, and which of two floats is the lesser.

#[cfg(not(any(test, feature = "std")))]
use crate::numbers::Round;
use crate::numbers::{nearest_i64_to_f32, saturating_f32_to_i32};

/// One half.
const HALF: f32 = 0.5;

/// The float that is nearest to a whole number.
///
/// # Proved
///
/// ```text
/// ensures { result ≡ of_int binary32 number }
/// ```
#[inline]
pub fn float(number: i32) -> f32 {
    nearest_i64_to_f32(i64::from(number))
}

/// The whole number that is nearest, and the greater one between two: the whole part of half more. One
/// that is past 32 bits is the nearest number of as many bits.
///
/// # Proved
///
/// ```text
/// ensures { result ≡ rounded number }
/// ```
#[inline]
pub fn rounded(number: f32) -> i32 {
    saturating_f32_to_i32((number + HALF).floor())
}

/// The lesser of two floats; the second one where they are not ordered.
///
/// # Proved
///
/// ```text
/// ensures { result ≡ lesser one other }
/// ```
#[inline]
pub fn lesser(one: f32, other: f32) -> f32 {
    if one <= other { one } else { other }
}

/// The greater of two floats; the second one where they are not ordered.
///
/// # Proved
///
/// ```text
/// ensures { result ≡ greater one other }
/// ```
#[inline]
pub fn greater(one: f32, other: f32) -> f32 {
    if one >= other { one } else { other }
}
