// Written by tools/plain_rust from crates/shape_lines. Do not edit.

//! The file of the font that a command line names.

use crate::fonts::font_file::FontFile;
use crate::host::io::{self, Write};
use crate::host::{AllocGlobal, Files};
use crate::lines::batch::say;
use crate::lines::errors::CommandError;
use crate::options::batch::words_of_line;
use crate::options::options::{FontChoice, Options};
use crate::options::words::options_of;

/// Reads the file of the font, unless it was read last.
///
/// # Errors
///
/// `Err`: the clauses below say when.
///
/// # Proved
///
/// ```text
/// ensures { OnOk result (file.new.path ≡ Some options.now.font_file.now) }
/// ```
#[inline]
pub fn read_font_file<'a, F: Files + AllocGlobal>(
    rt: &F,
    options: &Options<'a>,
    file: &mut FontFile,
) -> Result<(), CommandError<'a>> {
    let path = options.font_file;
    match file.read(rt, path) {
        Ok(()) => Ok(()),
        Err(error) => Err(CommandError::Font { file: path, error }),
    }
}

/// Reads the file of the font that words name, unless it was read last, and says which font it is.
fn read_font<'a, F: Files + AllocGlobal>(
    rt: &F,
    words: &'a [&'a str],
    file: &mut FontFile,
) -> Result<FontChoice, CommandError<'a>> {
    let options = options_of(words)?;
    read_font_file(rt, &options, file)?;
    Ok(options.font)
}

/// Reads the file of the font that a line of a batch names, unless it was read last, and says which
/// font it is. `None` where there is no such file, which is said.
///
/// # Errors
///
/// `Err`: the clauses below say when.
///
/// # Proved
///
/// That it returns.
#[inline]
pub fn read_named_font<F: Files + AllocGlobal, W: Write>(
    rt: &F,
    program: &str,
    line: &[u8],
    file: &mut FontFile,
    output: &mut W,
) -> io::Result<Option<FontChoice>> {
    let Ok(line) = std::str::from_utf8(line) else {
        writeln!(output, "error: not UTF-8")?;
        return Ok(None);
    };
    let words = words_of_line(program, line)?;
    match read_font(rt, words.as_slice(), file) {
        Ok(choice) => Ok(Some(choice)),
        Err(error) => {
            say(output, error)?;
            Ok(None)
        }
    }
}
