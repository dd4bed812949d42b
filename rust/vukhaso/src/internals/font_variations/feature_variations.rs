// Written by tools/plain_rust from crates/font_variations. Do not edit.

//! Features that have other lookups in a part of the space of variations (OpenType specification, "OpenType Layout Common Table
//! Formats", "FeatureVariations table").

use crate::font_tables::bytes::{i16_at, table_at_32, u16_at, u32_at};
use crate::font_variations::regions::coordinate;

/// The feature tables that stand in the place of others at these coordinates: the
/// FeatureTableSubstitution table of the first record of a table `GSUB` or `GPOS` whose conditions all
/// hold. An empty one where there is none.
///
/// # Proved
///
/// ```text
/// ensures { result.now ≡ substitutions_of table.now coordinates.now }
/// ```
#[inline]
pub fn substitutions_of<'a>(table: &'a [u8], coordinates: &[i32]) -> &'a [u8] {
    let variations = variations_of(table);
    let count = u32_at(variations, 4).unwrap_or(0);
    match record_that_holds(variations, count, coordinates) {
        Some(row) => table_at_32(variations, 12 + 8 * row as usize).unwrap_or(&[]),
        None => &[],
    }
}

/// The first of so many records of a FeatureVariations table whose conditions all hold. One that lies
/// outside of the table has none, so that the search ends with it at the latest.
fn record_that_holds(variations: &[u8], count: u32, coordinates: &[i32]) -> Option<u32> {
    for row in 0..count {
        if record_holds(variations, row, coordinates) {
            return Some(row);
        }
    }
    None
}

/// Whether the conditions of a record all hold.
fn record_holds(variations: &[u8], row: u32, coordinates: &[i32]) -> bool {
    let set = table_at_32(variations, 8 + 8 * row as usize).unwrap_or(&[]);
    all_hold(set, coordinates)
}

/// The feature table that a FeatureTableSubstitution table puts in the place of the feature with this
/// number; `None` where it leaves that feature as it is.
///
/// # Proved
///
/// ```text
/// ensures { option_copied result ≡ substitute_of substitutions.now feature }
/// ```
#[inline]
pub fn substitute_of(substitutions: &[u8], feature: u16) -> Option<&[u8]> {
    if !matches!(u16_at(substitutions, 0), Some(1)) {
        return None;
    }
    let count = u16_at(substitutions, 4).unwrap_or(0);
    let row = record_of(substitutions, count, feature)?;
    Some(table_at_32(substitutions, 8 + 6 * usize::from(row)).unwrap_or(&[]))
}

/// The first of so many records of a FeatureTableSubstitution table that is for a feature.
fn record_of(substitutions: &[u8], count: u16, feature: u16) -> Option<u16> {
    for row in 0..count {
        if is_for(substitutions, row, feature) {
            return Some(row);
        }
    }
    None
}

/// Whether a record is for a feature.
fn is_for(substitutions: &[u8], row: u16, feature: u16) -> bool {
    match u16_at(substitutions, 6 + 6 * usize::from(row)) {
        Some(number) => number == feature,
        None => false,
    }
}

/// The FeatureVariations table of `GSUB` or `GPOS`, which their version 1.1 has; an empty one where
/// there is none.
fn variations_of(table: &[u8]) -> &[u8] {
    if matches!(u16_at(table, 0), Some(1)) && u16_at(table, 2).unwrap_or(0) >= 1 {
        of_major_1(table_at_32(table, 10).unwrap_or(&[]))
    } else {
        &[]
    }
}

/// The table, if it is of the major version 1; else an empty one.
fn of_major_1(table: &[u8]) -> &[u8] {
    if matches!(u16_at(table, 0), Some(1)) {
        table
    } else {
        &[]
    }
}

/// Whether all conditions of a set hold at these coordinates, as those of an empty set do.
fn all_hold(set: &[u8], coordinates: &[i32]) -> bool {
    first_hold(set, u16_at(set, 0).unwrap_or(0), coordinates)
}

/// Whether the first conditions of a set, so many of them, all hold.
fn first_hold(set: &[u8], count: u16, coordinates: &[i32]) -> bool {
    for row in 0..count {
        if !holds(condition_of(set, row), coordinates) {
            return false;
        }
    }
    true
}

/// The condition of a set with this number; an empty table where there is none.
fn condition_of(set: &[u8], row: u16) -> &[u8] {
    table_at_32(set, 2 + 4 * usize::from(row)).unwrap_or(&[])
}

/// Whether a condition holds: whether the coordinate of its axis lies between its two numbers. One of
/// another format than 1 does not.
fn holds(condition: &[u8], coordinates: &[i32]) -> bool {
    if !matches!(u16_at(condition, 0), Some(1)) {
        return false;
    }
    let axis = u16_at(condition, 2).unwrap_or(0);
    let coordinate = coordinate(coordinates, usize::from(axis));
    match (i16_at(condition, 4), i16_at(condition, 6)) {
        (Some(least), Some(most)) => {
            i32::from(least) <= coordinate && coordinate <= i32::from(most)
        }
        _ => false,
    }
}
