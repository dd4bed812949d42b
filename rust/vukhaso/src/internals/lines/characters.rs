// Written by tools/plain_rust from crates/shape_lines. Do not edit.

//! The list of a line's characters, which may be shown before its answer.

use crate::line_formats::characters::characters_list;
use crate::line_formats::heads::Shown;
use crate::lines::text::{empty_text, fill};
use crate::memory::{AllocError, Vec};
use crate::options::options::LineOptions;

/// The list of a line's characters, where that is shown; else it is empty.
///
/// # Errors
///
/// `Err(AllocError)` where memory ran out.
///
/// # Proved
///
/// ```text
/// ensures { IfOk result (λ characters. IsList characters.items) }
/// ```
#[inline]
pub fn shown_characters(
    options: &LineOptions<'_>,
    shown: Shown,
    line: &str,
) -> Result<Vec<u8>, AllocError> {
    let mut text = empty_text(options);
    if shown.characters {
        // Of a line that is too long there is no list.
        let _fits = fill(options, line, &mut text)?;
    }
    let buffer = text.into_buffer();
    let list = characters_list(buffer.info())?;
    Ok(list)
}
