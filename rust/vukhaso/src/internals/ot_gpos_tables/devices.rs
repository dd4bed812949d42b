// Written by tools/plain_rust from crates/ot_gpos_tables. Do not edit.

//! Device tables: corrections of numbers where glyphs are drawn in pixels, or at a place in the variations of a font (OpenType
//! specification, "OpenType Layout Common Table Formats", "Device and VariationIndex tables").

use crate::font_tables::bytes::{tail, u16_at, u32_at};
use crate::ot_gpos_tables::instance::Instance;

/// The correction of a number across by the device table, or the table of variations, that an offset
/// leads to, from the start of `table`. It is 0 where the offset is 0.
///
/// # Proved
///
/// ```text
/// ensures is { result ≡ x_correction table.now offset instance.now }
/// ensures unvaried { is_varied instance.now.deltas ≡ false
///     → result ≡ device_delta table.now offset instance.now.scale.x_ppem instance.now.scale.x }
/// ```
#[inline]
pub fn x_correction(table: &[u8], offset: u16, instance: &Instance<'_>) -> i32 {
    match variation_index(table, offset) {
        Some(index) => instance.x_delta(index),
        None => device_delta(table, offset, instance.scale.x_ppem, instance.scale.x),
    }
}

/// The correction of a number upwards by the device table, or the table of variations, that an offset
/// leads to, from the start of `table`. It is 0 where the offset is 0.
///
/// # Proved
///
/// ```text
/// ensures is { result ≡ y_correction table.now offset instance.now }
/// ensures unvaried { is_varied instance.now.deltas ≡ false
///     → result ≡ device_delta table.now offset instance.now.scale.y_ppem instance.now.scale.y }
/// ```
#[inline]
pub fn y_correction(table: &[u8], offset: u16, instance: &Instance<'_>) -> i32 {
    match variation_index(table, offset) {
        Some(index) => instance.y_delta(index),
        None => device_delta(table, offset, instance.scale.y_ppem, instance.scale.y),
    }
}

/// The delta set that the table at an offset names; `None` where it is no table of variations.
fn variation_index(table: &[u8], offset: u16) -> Option<u32> {
    if offset == 0 {
        return None;
    }
    let device = tail(table, usize::from(offset));
    if matches!(u16_at(device, 4), Some(0x8000)) {
        u32_at(device, 0)
    } else {
        None
    }
}

/// The correction by the device table that an offset leads to, from the start of `table`, where an em
/// has `ppem` pixels and is `size` long. It is 0 where there are no pixels, or no such table.
///
/// # Proved
///
/// ```text
/// ensures { result ≡ device_delta table.now offset ppem size }
/// ```
#[inline]
pub fn device_delta(table: &[u8], offset: u16, ppem: u16, size: i32) -> i32 {
    if offset == 0 || ppem == 0 {
        return 0;
    }
    let pixels = delta_pixels(tail(table, usize::from(offset)), ppem);
    saturated(i64::from(pixels).saturating_mul(i64::from(size)) / i64::from(ppem))
}

/// By how many pixels a number is corrected at a size.
///
/// # Proved
///
/// ```text
/// ensures { result ≡ delta_pixels device.now ppem }
/// ```
#[inline]
pub fn delta_pixels(device: &[u8], ppem: u16) -> i32 {
    let first = u16_at(device, 0).unwrap_or(0);
    let last = u16_at(device, 2).unwrap_or(0);
    if ppem < first || last < ppem {
        return 0;
    }
    let place = ppem - first;
    match u16_at(device, 4).unwrap_or(0) {
        1 => packed_value_2(device, place),
        2 => packed_value_4(device, place),
        3 => packed_value_8(device, place),
        _ => 0,
    }
}

/// The value at a place among values of 2 bits.
fn packed_value_2(device: &[u8], place: u16) -> i32 {
    let word = u16_at(device, 6 + 2 * usize::from(place / 8)).unwrap_or(0);
    signed_of_bits(2, (word >> (16 - 2 * (place % 8 + 1))) % 4)
}

/// The value at a place among values of 4 bits.
fn packed_value_4(device: &[u8], place: u16) -> i32 {
    let word = u16_at(device, 6 + 2 * usize::from(place / 4)).unwrap_or(0);
    signed_of_bits(4, (word >> (16 - 4 * (place % 4 + 1))) % 16)
}

/// The value at a place among values of 8 bits.
fn packed_value_8(device: &[u8], place: u16) -> i32 {
    let word = u16_at(device, 6 + 2 * usize::from(place / 2)).unwrap_or(0);
    signed_of_bits(8, (word >> (16 - 8 * (place % 2 + 1))) % 256)
}

/// A number of so many bits, in two's complement.
///
/// # Requires
///
/// - `some: 0 < bits`
/// - `few: bits < 9`
fn signed_of_bits(bits: u32, number: u16) -> i32 {
    debug_assert!(0 < bits);
    debug_assert!(bits < 9);
    let number = i32::from(number);
    if number < 1 << (bits - 1) {
        number
    } else {
        number - (1 << bits)
    }
}

/// The nearest number of 32 bits.
fn saturated(value: i64) -> i32 {
    if value < -0x8000_0000 {
        i32::MIN
    } else if value > 0x7FFF_FFFF {
        i32::MAX
    } else {
        value as i32
    }
}
