// Written by tools/plain_rust from crates/line_formats. Do not edit.

//! What stands before the answer to a line.

use crate::line_formats::writing::{write_bytes, write_number};
use crate::memory::{AllocError, Vec};

/// What is printed before the answer to a line.
#[derive(Clone, Copy, PartialEq, Eq, Debug)]
pub struct Shown {
    /// The line, in a line of its own.
    pub text: bool,
    /// Its characters, in a line of their own.
    pub characters: bool,
    /// Its number, before each of these lines and before the answer.
    pub number: bool,
}

/// What stands before the answer to a line of this number, with this list of characters.
///
/// # Errors
///
/// `Err(AllocError)` where memory ran out.
///
/// # Proved
///
/// ```text
/// ensures { IfOk result (λ text. text.items ≡ head shown number line.now characters.now) }
/// ```
#[inline]
pub fn head(
    shown: Shown,
    number: u64,
    line: &[u8],
    characters: &[u8],
) -> Result<Vec<u8>, AllocError> {
    let mut text = Vec::new();
    write_text_line(&mut text, shown, number, line)?;
    write_characters_line(&mut text, shown, number, characters)?;
    write_number_before(&mut text, shown, number)?;
    Ok(text)
}

/// The line in parentheses, where it is shown.
fn write_text_line(
    text: &mut Vec<u8>,
    shown: Shown,
    number: u64,
    line: &[u8],
) -> Result<(), AllocError> {
    if !shown.text {
        return Ok(());
    }
    write_number_before(text, shown, number)?;
    write_bytes(text, b"(")?;
    write_bytes(text, line)?;
    write_bytes(text, b")\n")
}

/// The list of characters, where it is shown.
fn write_characters_line(
    text: &mut Vec<u8>,
    shown: Shown,
    number: u64,
    characters: &[u8],
) -> Result<(), AllocError> {
    if !shown.characters {
        return Ok(());
    }
    write_number_before(text, shown, number)?;
    write_bytes(text, characters)?;
    write_bytes(text, b"\n")
}

/// The number of the line, where it is shown.
fn write_number_before(text: &mut Vec<u8>, shown: Shown, number: u64) -> Result<(), AllocError> {
    if !shown.number {
        return Ok(());
    }
    write_number(text, number)?;
    write_bytes(text, b": ")
}
