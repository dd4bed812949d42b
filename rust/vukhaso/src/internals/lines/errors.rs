// Written by tools/plain_rust from crates/shape_lines. Do not edit.

//! Why a command line was not answered, or not each line of a text.

use crate::host::io::{self, ErrorKind};
use crate::memory::AllocError;
use crate::options::words::WordsError;

/// Why not each line of a text was answered.
#[derive(Debug)]
pub enum LinesError {
    /// The text was not read to its end.
    Read(io::Error),
    /// An answer was not written.
    Write(io::Error),
    /// There is no memory.
    Memory,
}

impl From<AllocError> for LinesError {
    fn from(_error: AllocError) -> LinesError {
        LinesError::Memory
    }
}

/// The error of a read.
///
/// # Proved
///
/// That it returns.
#[inline]
pub fn read_error(error: io::Error) -> LinesError {
    match error.kind() {
        ErrorKind::OutOfMemory => LinesError::Memory,
        _ => LinesError::Read(error),
    }
}

/// Why a command line was not answered to its end.
#[derive(Debug)]
pub enum CommandError<'a> {
    /// The words are not answered; no file was read.
    Words(WordsError<'a>),
    /// The file of the font was not read.
    Font {
        /// The file.
        file: &'a str,
        /// Why it was not read.
        error: io::Error,
    },
    /// The file has no font of this number.
    Face(&'a str),
    /// The text was not read.
    Text {
        /// The file.
        file: &'a str,
        /// Why it was not read.
        error: io::Error,
    },
    /// The answers are those of shaping that was given up.
    GivenUp,
    /// The answers were not written.
    Output(io::Error),
    /// The file of the answers was not made.
    OutputFile {
        /// The file.
        file: &'a str,
        /// Why it was not made.
        error: io::Error,
    },
    /// There is no memory.
    Memory,
}

impl<'a> core::fmt::Display for CommandError<'a> {
    fn fmt(&self, f: &mut core::fmt::Formatter<'_>) -> core::fmt::Result {
        match self {
            Self::Words(n0) => write!(f, "{n0}"),
            Self::Font { file, error, .. } => write!(f, "{file}: {error}"),
            Self::Face(n0) => write!(f, "{n0}: Failed loading font face"),
            Self::Text { file, error, .. } => write!(f, "Failed reading text: {file}: {error}"),
            Self::GivenUp => write!(
                f,
                "Shaping was given up: the font asks for more work than the text may cost"
            ),
            Self::Output(n0) => write!(f, "Failed writing glyphs: {n0}"),
            Self::OutputFile { file, error, .. } => {
                write!(f, "Cannot open output file '{file}': {error}")
            }
            Self::Memory => write!(f, "out of memory"),
        }
    }
}

impl<'a> core::error::Error for CommandError<'a> {}

impl From<AllocError> for CommandError<'_> {
    fn from(_error: AllocError) -> Self {
        CommandError::Memory
    }
}

impl<'a> From<WordsError<'a>> for CommandError<'a> {
    fn from(error: WordsError<'a>) -> Self {
        match error {
            WordsError::Memory => CommandError::Memory,
            error => CommandError::Words(error),
        }
    }
}

impl<'a> CommandError<'a> {
    /// Whether other words may do, so that help on them may be wanted.
    ///
    /// # Proved
    ///
    /// That it returns.
    #[inline]
    pub fn wants_help(&self) -> bool {
        matches!(
            self,
            CommandError::Words(WordsError::Options(_))
                | CommandError::Font { .. }
                | CommandError::Face(_)
                | CommandError::OutputFile { .. }
        )
    }

    /// The error of lines that are in this file.
    ///
    /// # Proved
    ///
    /// That it returns.
    #[inline]
    pub fn of_lines(file: &'a str, error: LinesError) -> Self {
        match error {
            LinesError::Read(error) => CommandError::Text { file, error },
            LinesError::Write(error) => CommandError::Output(error),
            LinesError::Memory => CommandError::Memory,
        }
    }
}
