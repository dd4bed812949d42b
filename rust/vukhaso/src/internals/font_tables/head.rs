// Written by tools/plain_rust from crates/font_tables. Do not edit.

//! The tables `head` and `maxp` (OpenType specification, "head - Font Header Table" and "maxp - Maximum Profile").

use crate::font_tables::bytes::{u16_at, u32_at};

/// How many font units an em has, by the table `head`: 1000, as HarfBuzz takes it, where there is no
/// such table or the number is not between 16 and 16384.
///
/// # Proved
///
/// ```text
/// ensures { result ≡ units_per_em head.now }
/// ```
#[inline]
pub fn units_per_em(head: &[u8]) -> u16 {
    let units = u16_at(head, 18).unwrap_or(0);
    if is_head(head) && 16 <= units && units <= 16384 {
        units
    } else {
        1000
    }
}

/// How the table `loca` has its offsets, by the table `head`: 0 as half of each in 16 bits, 1 in 32
/// bits. It is 0 where there is no such table.
///
/// # Proved
///
/// ```text
/// ensures { result ≡ index_to_loc_format head.now }
/// ```
#[inline]
pub fn index_to_loc_format(head: &[u8]) -> u16 {
    if is_head(head) {
        u16_at(head, 50).unwrap_or(0)
    } else {
        0
    }
}

/// How many glyphs the font has, by the table `maxp`; 0 where there is no such table.
///
/// # Proved
///
/// ```text
/// ensures { result ≡ glyph_count maxp.now }
/// ```
#[inline]
pub fn glyph_count(maxp: &[u8]) -> u16 {
    if is_maxp(maxp) {
        u16_at(maxp, 4).unwrap_or(0)
    } else {
        0
    }
}

/// Whether these are the bytes of a table `head`.
fn is_head(head: &[u8]) -> bool {
    head.len() >= 54
        && matches!(u16_at(head, 0), Some(1))
        && matches!(u32_at(head, 12), Some(0x5F0F_3CF5))
}

/// Whether these are the bytes of a table `maxp`, of the version 1.0 or 0.5.
fn is_maxp(maxp: &[u8]) -> bool {
    maxp.len() >= 32 && matches!(u16_at(maxp, 0), Some(1))
        || maxp.len() >= 6 && matches!(u32_at(maxp, 0), Some(0x0000_5000))
}
