// Written by tools/plain_rust from crates/shape_options. Do not edit.

//! The words of a command line.

use crate::clap::ArgMatches;
use crate::host::AsStr;
use crate::memory::{AllocError, String};
use crate::options::arguments::{asked_for, matches_of};
use crate::options::options::{Options, OptionsError};

/// Why the words of a command line are not answered.
#[derive(Debug)]
pub enum WordsError<'a> {
    /// They are no command line.
    Words(crate::clap::Error),
    /// They ask for nothing that can be done.
    Options(OptionsError<'a>),
    /// They ask for this text.
    Asked(String),
    /// There is no memory.
    Memory,
}

impl<'a> core::fmt::Display for WordsError<'a> {
    fn fmt(&self, f: &mut core::fmt::Formatter<'_>) -> core::fmt::Result {
        match self {
            Self::Words(n0) => write!(f, "{n0}"),
            Self::Options(n0) => write!(f, "{n0}"),
            Self::Asked(n0) => write!(f, "{n0}"),
            Self::Memory => write!(f, "out of memory"),
        }
    }
}

impl<'a> core::error::Error for WordsError<'a> {}

impl From<AllocError> for WordsError<'_> {
    fn from(_error: AllocError) -> Self {
        WordsError::Memory
    }
}

impl<'a> From<OptionsError<'a>> for WordsError<'a> {
    fn from(error: OptionsError<'a>) -> Self {
        match error {
            OptionsError::Memory => WordsError::Memory,
            error => WordsError::Options(error),
        }
    }
}

/// What a command line asks for; its first word is the name of the program. No file is read.
///
/// # Errors
///
/// `Err`: the clauses below say when.
///
/// # Proved
///
/// That it returns.
#[inline]
pub fn options_of<'a, S: AsStr>(words: &'a [S]) -> Result<Options<'a>, WordsError<'a>> {
    match matches_of(words) {
        Ok(matches) => options_of_matches(&matches),
        Err(error) => Err(WordsError::Words(error)),
    }
}

/// What the words of a command line ask for.
fn options_of_matches<'a>(matches: &ArgMatches<'a>) -> Result<Options<'a>, WordsError<'a>> {
    match asked_for(matches)? {
        Some(text) => Err(WordsError::Asked(text)),
        None => Ok(Options::from_matches(matches)?),
    }
}
