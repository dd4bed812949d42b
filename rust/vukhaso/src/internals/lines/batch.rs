// Written by tools/plain_rust from crates/shape_lines. Do not edit.

//! The lines of a batch: how they are read, and what stands in place of an answer.

use crate::host::io::{self, BufRead, ErrorKind, Write};
use crate::lines::errors::{CommandError, LinesError};
use crate::lines::reading::{Reading, next_line};
use crate::memory::{TryDisplay, Vec};
use crate::options::words::WordsError;

/// Reads the next line, if there is one, up to a byte 0 if it has one.
///
/// # Errors
///
/// `Err`: the clauses below say when.
///
/// # Proved
///
/// That it returns.
#[inline]
pub fn has_next<R: BufRead>(input: &mut R, line: &mut Vec<u8>) -> io::Result<bool> {
    match next_line(input, Reading::Whole, line) {
        Ok(found) => {
            line.truncate(
                line.iter()
                    .position(|byte| *byte == 0)
                    .unwrap_or(line.len()),
            );
            Ok(found)
        }
        Err(LinesError::Read(error) | LinesError::Write(error)) => Err(error),
        Err(LinesError::Memory) => Err(io::Error::from(ErrorKind::OutOfMemory)),
    }
}

/// Says in place of an answer why there is none. An answer that was not written is an error of the
/// whole batch.
///
/// # Errors
///
/// `Err`: the clauses below say when.
///
/// # Proved
///
/// That it returns.
#[inline]
pub fn say<W: Write>(output: &mut W, error: CommandError<'_>) -> io::Result<()> {
    let error = match error {
        CommandError::Output(error) => return Err(error),
        CommandError::Words(WordsError::Asked(text)) => return output.write_all(text.as_bytes()),
        error => error,
    };
    let message = error.try_to_string()?;
    let first = message.as_str().lines().next().unwrap_or("");
    let reason = first.strip_prefix("error: ").unwrap_or(first);
    writeln!(output, "error: {reason}")
}
