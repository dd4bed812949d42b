// Written by tools/plain_rust from crates/font_tables. Do not edit.

//! Numbers at places of a table, big endian (OpenType specification, "Data types").

use crate::numbers::ToSigned;

/// The number of 8 bits at a place; `None` outside of the table.
///
/// # Proved
///
/// ```text
/// ensures { result ≡ byte_at table.now at }
/// ```
#[inline]
pub fn u8_at(table: &[u8], at: usize) -> Option<u8> {
    table.get(at).copied()
}

/// The number of 16 bits at a place; `None` unless both of its bytes lie in the table.
///
/// # Proved
///
/// ```text
/// ensures { result ≡ number_16 table.now at }
/// ```
#[inline]
pub fn u16_at(table: &[u8], at: usize) -> Option<u16> {
    match table.get(at..)? {
        [high, low, ..] => Some(u16::from_be_bytes([*high, *low])),
        _ => None,
    }
}

/// The signed number of 16 bits at a place, in two's complement; `None` unless both of its bytes lie in
/// the table.
///
/// # Proved
///
/// ```text
/// ensures { result ≡ signed_16 table.now at }
/// ```
#[inline]
pub fn i16_at(table: &[u8], at: usize) -> Option<i16> {
    u16_at(table, at).map(|number| number.to_signed())
}

/// The number of 24 bits at a place; `None` unless its three bytes lie in the table.
///
/// # Proved
///
/// ```text
/// ensures { result ≡ number_24 table.now at }
/// ```
#[inline]
pub fn u24_at(table: &[u8], at: usize) -> Option<u32> {
    match table.get(at..)? {
        [high, middle, low, ..] => {
            Some(u32::from(*high) * 65536 + u32::from(*middle) * 256 + u32::from(*low))
        }
        _ => None,
    }
}

/// The number of 32 bits at a place; `None` unless its four bytes lie in the table.
///
/// # Proved
///
/// ```text
/// ensures { result ≡ number_32 table.now at }
/// ```
#[inline]
pub fn u32_at(table: &[u8], at: usize) -> Option<u32> {
    match table.get(at..)? {
        [first, second, third, fourth, ..] => {
            Some(u32::from_be_bytes([*first, *second, *third, *fourth]))
        }
        _ => None,
    }
}

/// The table from a place on, which is empty from its end on.
///
/// # Proved
///
/// ```text
/// ensures { result.now ≡ drop at table.now }
/// ```
#[inline]
pub fn tail(table: &[u8], at: usize) -> &[u8] {
    if at < table.len() { &table[at..] } else { &[] }
}

/// So many bytes of the table from a place on, or as many as there are.
///
/// # Proved
///
/// ```text
/// ensures { result.now ≡ take count (drop at table.now) }
/// ```
#[inline]
pub fn part(table: &[u8], at: usize, count: usize) -> &[u8] {
    let rest = tail(table, at);
    if count < rest.len() {
        &rest[..count]
    } else {
        rest
    }
}

/// The table that the offset of 16 bits at a place leads to, from the start of this one; `None` where
/// the offset is 0, or lies outside.
///
/// # Proved
///
/// ```text
/// ensures { option_copied result ≡ table_at_16 table.now at }
/// ```
#[inline]
pub fn table_at_16(table: &[u8], at: usize) -> Option<&[u8]> {
    let offset = u16_at(table, at)?;
    table_behind(table, u32::from(offset))
}

/// The table that the offset of 32 bits at a place leads to, from the start of this one; `None` where
/// the offset is 0, or lies outside.
///
/// # Proved
///
/// ```text
/// ensures { option_copied result ≡ table_at_32 table.now at }
/// ```
#[inline]
pub fn table_at_32(table: &[u8], at: usize) -> Option<&[u8]> {
    let offset = u32_at(table, at)?;
    table_behind(table, offset)
}

/// The table that an offset leads to; `None` where it is 0.
fn table_behind(table: &[u8], offset: u32) -> Option<&[u8]> {
    if offset == 0 {
        None
    } else {
        Some(tail(table, offset as usize))
    }
}
