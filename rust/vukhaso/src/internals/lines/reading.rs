// Written by tools/plain_rust from crates/shape_lines. Do not edit.

//! How a text is read, line by line: whole, or as strings of C hold it.

use crate::host::io::{self, BufRead, ErrorKind};
use crate::lines::errors::{LinesError, read_error};
use crate::memory::{AllocError, Vec};
use crate::options::options::TextSource;

/// How much of a text is read at a time, with the byte 0 that ends a string.
const BUFFER: usize = 8192;

/// What is seen of the bytes of a text.
#[derive(Clone, Copy, PartialEq, Eq, Debug)]
pub enum Reading {
    /// All of them: the text is a word of the command line.
    Whole,
    /// Those that the strings hold which C's `fgets` reads of a file. A string ends behind a line feed or where a buffer is full, and
    /// what stands in it from a byte 0 on is not seen.
    Strings,
}

impl Reading {
    /// How a text from there is read.
    ///
    /// # Proved
    ///
    /// ```text
    /// ensures { result ≡ reading_of source.now }
    /// ```
    #[inline]
    pub fn of(source: &TextSource<'_>) -> Self {
        match source {
            TextSource::Given(_) | TextSource::CodePoints(_) => Reading::Whole,
            TextSource::Input | TextSource::File(_) => Reading::Strings,
        }
    }
}

/// Reads a line in place of the one that is held, without the line feed that ends it. It says whether
/// there was one.
///
/// # Errors
///
/// `Err`: the clauses below say when.
///
/// # Proved
///
/// ```text
/// ensures { IfOk result (λ found. TakesLine reading found
///     (R.remaining reader.old) (R.remaining reader.new) line.new.items) }
/// ```
#[inline]
pub fn next_line<R: BufRead>(
    reader: &mut R,
    reading: Reading,
    line: &mut Vec<u8>,
) -> Result<bool, LinesError> {
    line.clear();
    for _ in 0..u64::MAX {
        if !read_run(reader, reading, line)? {
            return Ok(!line.is_empty());
        }
        if ends_line(line.as_slice()) {
            line.truncate(line.len() - 1);
            return Ok(true);
        }
    }
    Err(LinesError::Read(io::Error::from(ErrorKind::Other)))
}

/// Whether a line feed stands at the end.
fn ends_line(line: &[u8]) -> bool {
    !line.is_empty() && line[line.len() - 1] == b'\n'
}

/// Adds the bytes up to the next line feed, and that, as far as they are seen, and says whether there
/// were some.
///
/// # Errors
///
/// `Err`: the clauses below say when.
///
/// # Proved
///
/// ```text
/// ensures { IfOk result (λ found. AddsRun reading found (R.remaining reader.old) (R.remaining reader.new)
///     line.old.items line.new.items) }
/// ```
#[inline]
pub fn read_run<R: BufRead>(
    reader: &mut R,
    reading: Reading,
    line: &mut Vec<u8>,
) -> Result<bool, LinesError> {
    let start = line.len();
    let read = match reader.read_until(b'\n', line) {
        Ok(read) => read,
        Err(error) => return Err(read_error(error)),
    };
    keep_seen(reading, line, start)?;
    Ok(read > 0)
}

/// Keeps of the bytes from a place on those that are seen.
///
/// # Requires
///
/// - `start ≤ length bytes.old.items`
///
/// # Errors
///
/// `Err(AllocError)` where memory ran out.
///
/// # Proved
///
/// ```text
/// ensures { OnOk result (bytes.new.items
///     ≡ take start bytes.old.items ++ seen reading (drop start bytes.old.items)) }
/// ```
#[inline]
pub fn keep_seen(reading: Reading, bytes: &mut Vec<u8>, start: usize) -> Result<(), AllocError> {
    debug_assert!(start <= bytes.len());
    match reading {
        Reading::Whole => Ok(()),
        Reading::Strings => keep_held(bytes, start),
    }
}

/// Keeps of the bytes from a place on those that strings hold.
///
/// # Requires
///
/// - `start ≤ length bytes.old.items`
fn keep_held(bytes: &mut Vec<u8>, start: usize) -> Result<(), AllocError> {
    debug_assert!(start <= bytes.len());
    if !bytes[start..].contains(&0) {
        return Ok(());
    }
    let held = held(&bytes[start..])?;
    bytes.truncate(start);
    bytes.extend_from_slice(held.as_slice())?;
    Ok(())
}

/// Where in a string of C a byte stands.
#[derive(Clone, Copy, Debug)]
struct Place {
    /// How many bytes the string still has room for.
    left: usize,
    /// Whether a byte 0 stands before it.
    hides: bool,
}

impl Place {
    /// The first of a string.
    fn first() -> Self {
        Place {
            left: BUFFER - 1,
            hides: false,
        }
    }

    /// Whether this byte is not seen there.
    fn is_hidden(self, byte: u8) -> bool {
        self.hides || byte == 0
    }

    /// Whether this byte ends the string there.
    fn is_end(self, byte: u8) -> bool {
        byte == b'\n' || self.left < 2
    }

    /// The place behind this byte.
    fn behind(self, byte: u8) -> Self {
        if self.is_end(byte) {
            return Place::first();
        }
        Place {
            left: self.left - 1,
            hides: self.is_hidden(byte),
        }
    }
}

/// Adds a byte, unless it is hidden.
fn push_seen(seen: &mut Vec<u8>, byte: u8, is_hidden: bool) -> Result<(), AllocError> {
    if !is_hidden {
        seen.push(byte)?;
    }
    Ok(())
}

/// The bytes that strings hold of these.
fn held(bytes: &[u8]) -> Result<Vec<u8>, AllocError> {
    let mut seen = Vec::new();
    let mut place = Place::first();
    for i in 0..bytes.len() {
        push_seen(&mut seen, bytes[i], place.is_hidden(bytes[i]))?;
        place = place.behind(bytes[i]);
    }
    Ok(seen)
}
