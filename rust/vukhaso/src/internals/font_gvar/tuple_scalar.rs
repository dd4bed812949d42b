// Written by tools/plain_rust from crates/font_gvar. Do not edit.

//! How much of a tuple's deltas holds at a place in the variations of a font.

use crate::font_gvar::gvar::GlyphVariations;
use crate::font_gvar::tuples::Tuple;
use crate::font_tables::bytes::tail;
use crate::font_variations::tents::Tent;

/// How much of a tuple's deltas holds at these coordinates. Nothing where it names shared peaks that
/// are not there.
pub(crate) fn tuple_scalar(
    variations: &GlyphVariations<'_>,
    tuple: &Tuple<'_>,
    coordinates: &[i32],
) -> f32 {
    match peaks_of(variations, tuple) {
        Some(peaks) => {
            let tent = Tent {
                peaks,
                ends: ends_of(variations, tuple),
                axis_count: variations.axis_count,
            };
            tent.scalar(coordinates)
        }
        None => 0.0,
    }
}

/// The peaks of a tuple; `None` where it names shared ones that are not there.
fn peaks_of<'a>(variations: &GlyphVariations<'a>, tuple: &Tuple<'a>) -> Option<&'a [u8]> {
    if tuple.has_peak() {
        return Some(tuple.coordinates);
    }
    let number = tuple.flags % 0x1000;
    if number < variations.shared_count {
        let size = 2 * usize::from(variations.axis_count);
        Some(tail(variations.shared, size * usize::from(number)))
    } else {
        None
    }
}

/// Where the deltas of a tuple begin to hold, and behind that where they end, if it says so.
fn ends_of<'a>(variations: &GlyphVariations<'a>, tuple: &Tuple<'a>) -> Option<&'a [u8]> {
    if !tuple.has_ends() {
        return None;
    }
    let start = if tuple.has_peak() {
        2 * usize::from(variations.axis_count)
    } else {
        0
    };
    Some(tail(tuple.coordinates, start))
}
