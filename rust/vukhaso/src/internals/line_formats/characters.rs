// Written by tools/plain_rust from crates/line_formats. Do not edit.

//! The list of a text's characters.

use crate::glyph::hb_glyph_info_t;
use crate::line_formats::writing::{write_bytes, write_member};
use crate::memory::{AllocError, Vec};

/// The characters as HarfBuzz's `hb_buffer_serialize_unicode` writes them: `U+` and the number in at
/// least four hexadecimal digits, `=` and the cluster, joined by `|` between `<` and `>`. Of no
/// character it is empty.
///
/// # Errors
///
/// `Err(AllocError)` where memory ran out.
///
/// # Proved
///
/// ```text
/// ensures { IfOk result (λ text. text.items ≡ lists.characters_list infos.now) }
/// ```
#[inline]
pub fn characters_list(infos: &[hb_glyph_info_t]) -> Result<Vec<u8>, AllocError> {
    let mut text = Vec::new();
    if infos.is_empty() {
        return Ok(text);
    }
    write_list(&mut text, infos)?;
    Ok(text)
}

/// The characters between brackets.
fn write_list(text: &mut Vec<u8>, infos: &[hb_glyph_info_t]) -> Result<(), AllocError> {
    write_bytes(text, b"<")?;
    write_characters(text, infos)?;
    write_bytes(text, b">")?;
    Ok(())
}

/// The characters, with bars between them.
fn write_characters(text: &mut Vec<u8>, infos: &[hb_glyph_info_t]) -> Result<(), AllocError> {
    for (i, info) in infos.iter().enumerate() {
        write_character(text, i, info)?;
    }
    Ok(())
}

/// A character, and the bar before it.
fn write_character(text: &mut Vec<u8>, i: usize, info: &hb_glyph_info_t) -> Result<(), AllocError> {
    write_bar(text, i)?;
    write_code_point(text, info.glyph_id)?;
    write_member(text, b"=", info.cluster)?;
    Ok(())
}

/// The bar before each character except the first.
fn write_bar(text: &mut Vec<u8>, i: usize) -> Result<(), AllocError> {
    if i > 0 {
        text.push(b'|')?;
    }
    Ok(())
}

/// `U+` and a number in hexadecimal digits.
fn write_code_point(text: &mut Vec<u8>, number: u32) -> Result<(), AllocError> {
    write_bytes(text, b"U+")?;
    write_hexadecimal(text, number, hex_len(number))?;
    Ok(())
}

/// The last digits of a number, so many.
///
/// # Requires
///
/// - `len ≤ 8`
fn write_hexadecimal(text: &mut Vec<u8>, number: u32, len: u32) -> Result<(), AllocError> {
    for k in 0..len {
        write_digit(text, number, len - 1 - k)?;
    }
    Ok(())
}

/// The hexadecimal digit with so many behind it.
///
/// # Requires
///
/// - `behind < 8`
fn write_digit(text: &mut Vec<u8>, number: u32, behind: u32) -> Result<(), AllocError> {
    debug_assert!(behind < 8);
    text.push(hex_digit(number, behind))?;
    Ok(())
}

/// How many hexadecimal digits are written of a number: at least four.
fn hex_len(number: u32) -> u32 {
    match number {
        0..=0xFFFF => 4,
        0x1_0000..=0xF_FFFF => 5,
        0x10_0000..=0xFF_FFFF => 6,
        0x100_0000..=0xFFF_FFFF => 7,
        _ => 8,
    }
}

/// Its byte.
///
/// # Requires
///
/// - `behind < 8`
fn hex_digit(number: u32, behind: u32) -> u8 {
    debug_assert!(behind < 8);
    let digit = ((number >> (4 * behind)) % 16) as u8;
    if digit < 10 {
        b'0' + digit
    } else {
        b'A' + (digit - 10)
    }
}
