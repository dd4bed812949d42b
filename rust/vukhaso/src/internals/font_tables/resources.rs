// Written by tools/plain_rust from crates/font_tables. Do not edit.

//! The fonts of a Macintosh resource file (Apple, "Inside Macintosh: More Macintosh Toolbox", "Resource Manager").

use crate::font_tables::bytes::{u16_at, u24_at, u32_at};

/// The tag `sfnt` of the type of fonts.
const FONT_TYPE: u32 = 0x7366_6E74;

/// Where the data of a resource file begins, which its first number says.
const DATA: u32 = 256;

/// Whether the bytes begin as a resource file does.
pub(crate) fn is_resource_file(file: &[u8]) -> bool {
    matches!(u32_at(file, 0), Some(DATA))
}

/// Where the bytes of the font with this index begin.
pub(crate) fn resource_font(file: &[u8], index: u32) -> Option<usize> {
    let types = type_list(file)?;
    let row = font_type(file, types)?;
    let more = u16_at(file, types + 6 + 8 * usize::from(row))?;
    if index <= u32::from(more) {
        resource_of_type(file, types, row, index as u16)
    } else {
        None
    }
}

/// How many fonts there are.
pub(crate) fn resource_fonts(file: &[u8]) -> u32 {
    counted_fonts(file).unwrap_or(0)
}

/// How many fonts there are, where there is a type of fonts.
fn counted_fonts(file: &[u8]) -> Option<u32> {
    let types = type_list(file)?;
    let row = font_type(file, types)?;
    let more = u16_at(file, types + 6 + 8 * usize::from(row))?;
    Some(u32::from(more) + 1)
}

/// Where the list of the types of resources begins.
fn type_list(file: &[u8]) -> Option<usize> {
    let map = u32_at(file, 4)? as usize;
    let offset = u16_at(file, map + 24)?;
    Some(map + usize::from(offset))
}

/// The first type of fonts in the list.
///
/// # Requires
///
/// - `types < 2 ^ 33`
fn font_type(file: &[u8], types: usize) -> Option<u16> {
    let more = u16_at(file, types)?;
    first_font_type(file, types, u32::from(more) + 1)
}

/// The first of so many types that is that of fonts.
///
/// # Requires
///
/// - `near: types < 2 ^ 33`
/// - `few: count ≤ 65536`
fn first_font_type(file: &[u8], types: usize, count: u32) -> Option<u16> {
    debug_assert!(count <= 65536);
    for row in 0..count {
        if is_font_type(file, types, row) {
            return Some(row as u16);
        }
    }
    None
}

/// Whether a type of the list is that of fonts.
///
/// # Requires
///
/// - `near: types < 2 ^ 33`
/// - `few: row < 65536`
fn is_font_type(file: &[u8], types: usize, row: u32) -> bool {
    debug_assert!(row < 65536);
    match u32_at(file, types + 2 + 8 * row as usize) {
        Some(tag) => tag == FONT_TYPE,
        None => false,
    }
}

/// Where the bytes of a resource of a type begin.
///
/// # Requires
///
/// - `types < 2 ^ 33`
fn resource_of_type(file: &[u8], types: usize, row: u16, index: u16) -> Option<usize> {
    let list = u16_at(file, types + 8 + 8 * usize::from(row))?;
    let record = types + usize::from(list) + 12 * usize::from(index);
    let offset = u24_at(file, record + 5)?;
    Some(DATA as usize + offset as usize + 4)
}
