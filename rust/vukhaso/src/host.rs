//! What a program of Rattle is handed to act: files, the words of its command line, and the standard streams.

pub(crate) mod env;
pub(crate) mod fs;
pub(crate) mod io;

use crate::memory::String;
use core::fmt::{self, Display};
use std::fs::File;
use std::io::{Result, Stderr, Stdin, Stdout, Write};

/// Files that are read and written.
pub(crate) trait Files {
    /// A file that is open.
    type File: std::io::Read + Write;

    /// Opens a file.
    fn open(&self, path: &str) -> Result<Self::File>;

    /// Makes a file that is empty, in place of one of this name.
    fn create(&self, path: &str) -> Result<Self::File>;
}

/// The words of the command line, the first of which is the name of the program.
pub(crate) trait Env {
    /// The words. An error where one of them is not UTF-8.
    fn words(&self) -> Result<std::vec::IntoIter<String>>;
}

/// Standard input.
pub(crate) trait Input {
    /// What reads it.
    fn reader(&self) -> Stdin;
}

/// Standard output.
pub(crate) trait Print {
    /// What writes to it.
    fn writer(&self) -> Stdout;

    /// Prints a text.
    fn print<T: Display>(&self, text: T) -> Result<()> {
        let mut output = self.writer();
        write!(output, "{text}")?;
        output.flush()
    }
}

/// Standard error.
pub(crate) trait Eprint {
    /// What writes to it.
    fn error_writer(&self) -> Stderr;

    /// Prints a text.
    fn eprint<T: Display>(&self, text: T) -> Result<()> {
        write!(self.error_writer(), "{text}")
    }

    /// Prints a line.
    fn eprint_line(&self, line: fmt::Arguments<'_>) -> Result<()> {
        writeln!(self.error_writer(), "{line}")
    }
}

/// Memory, of which there is one kind here.
pub(crate) trait AllocGlobal {}

/// A text, held or lent.
pub trait AsStr {
    /// The text.
    fn as_str(&self) -> &str;
}

impl AsStr for &str {
    fn as_str(&self) -> &str {
        self
    }
}

impl AsStr for String {
    fn as_str(&self) -> &str {
        self
    }
}

/// The system on which the program runs.
#[derive(Clone, Copy, Debug)]
pub(crate) struct Host;

impl Files for Host {
    type File = File;

    fn open(&self, path: &str) -> Result<File> {
        File::open(path)
    }

    fn create(&self, path: &str) -> Result<File> {
        File::create(path)
    }
}

impl Env for Host {
    fn words(&self) -> Result<std::vec::IntoIter<String>> {
        let words: Result<std::vec::Vec<String>> = std::env::args_os()
            .map(|word| match word.into_string() {
                Ok(word) => Ok(String::from(word)),
                Err(_) => Err(std::io::Error::new(
                    std::io::ErrorKind::InvalidInput,
                    "a word of the command line is not UTF-8",
                )),
            })
            .collect();
        Ok(words?.into_iter())
    }
}

impl Input for Host {
    fn reader(&self) -> Stdin {
        std::io::stdin()
    }
}

impl Print for Host {
    fn writer(&self) -> Stdout {
        std::io::stdout()
    }
}

impl Eprint for Host {
    fn error_writer(&self) -> Stderr {
        std::io::stderr()
    }
}

impl AllocGlobal for Host {}
