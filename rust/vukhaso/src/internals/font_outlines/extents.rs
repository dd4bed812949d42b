// Written by tools/plain_rust from crates/font_outlines. Do not edit.

//! The box of a CFF glyph, from the bounds of its path.

use crate::font_outlines::path::Bounds;
use crate::font_tables::scale::saturated;
use crate::glyph::GlyphExtents;

/// The box around a path, in whole font units: its left side and its top are rounded, and so is how far
/// it is from there to the other sides, as HarfBuzz does.
pub(crate) fn path_box(bounds: Bounds) -> GlyphExtents {
    let (min, max) = (bounds.min, bounds.max);
    let (is_wide, is_high) = (min.x < max.x, min.y < max.y);
    GlyphExtents {
        x_bearing: side(is_wide, min.x),
        y_bearing: side(is_high, max.y),
        width: length(is_wide, min.x, max.x),
        height: length(is_high, max.y, min.y),
    }
}

/// A side in whole font units; 0 where the box is empty.
fn side(is_there: bool, from: i64) -> i32 {
    if is_there { whole_units(0, from) } else { 0 }
}

/// How far it is from a side in whole font units to the other side; 0 where the box is empty.
fn length(is_there: bool, from: i64, to: i64) -> i32 {
    if is_there {
        whole_units(whole_units(0, from), to)
    } else {
        0
    }
}

/// How far it is from a place in font units to a coordinate, in whole font units, half of one upwards.
fn whole_units(from: i32, coordinate: i64) -> i32 {
    saturated(rounded(distance(from, coordinate)))
}

/// How far it is from a place in font units to a coordinate.
fn distance(from: i32, coordinate: i64) -> i128 {
    i128::from(coordinate) - i128::from(from) * 65536
}

/// A distance in whole font units.
///
/// # Requires
///
/// - `low: negsuc (2 ^ 64) ≤ℤ distance`
/// - `high: distance ≤ℤ pos (2 ^ 64)`
fn rounded(distance: i128) -> i128 {
    (distance + 32768).div_euclid(65536)
}
