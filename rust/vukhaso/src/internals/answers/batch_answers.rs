// Written by tools/plain_rust from crates/shape_answers. Do not edit.

//! The answers to the lines of a batch. A font is kept for all lines in a row that name it.

use crate::answers::ending::NAME;
use crate::answers::run::answer_options;
use crate::answers::texts::Shapes;
use crate::fonts::font_file::FontFile;
use crate::host::io::{self, BufRead, Write};
use crate::host::{AllocGlobal, Eprint, Files};
use crate::kept::loaded_font::LoadedFont;
use crate::lines::batch::{has_next, say};
use crate::lines::errors::CommandError;
use crate::lines::fonts::read_named_font;
use crate::memory::Vec;
use crate::options::batch::words_of_line;
use crate::options::words::options_of;

/// How the lines of one font were answered.
#[derive(Debug)]
struct Run {
    /// Whether a line of another font was read.
    has_line: bool,
    /// Whether each line was shaped.
    all_shaped: bool,
}

/// Answers each line of a batch, and says whether each was shaped.
pub(crate) fn answer_batch<F: Files + AllocGlobal + Eprint, T: Shapes, R: BufRead, W: Write>(
    rt: &F,
    texts: &T,
    input: &mut R,
    output: &mut W,
) -> io::Result<bool> {
    let mut file = FontFile::new();
    let mut line = Vec::new();
    let mut all_shaped = true;
    let mut has_line = has_next(input, &mut line)?;
    for _ in 0..u64::MAX {
        if !has_line {
            break;
        }
        let run = answer_run(rt, texts, &mut file, &mut line, input, output)?;
        all_shaped &= run.all_shaped;
        has_line = run.has_line;
    }
    Ok(all_shaped)
}

/// Answers the line that was read, and those behind it that name the same font.
fn answer_run<F: Files + AllocGlobal + Eprint, T: Shapes, R: BufRead, W: Write>(
    rt: &F,
    texts: &T,
    file: &mut FontFile,
    line: &mut Vec<u8>,
    input: &mut R,
    output: &mut W,
) -> io::Result<Run> {
    if let Some(choice) = read_named_font(rt, NAME, line.as_slice(), file, output)? {
        match LoadedFont::new(file, choice)? {
            Some(mut font) => {
                let mut own = texts.anew();
                return answer_with(rt, &mut own, &mut font, line, input, output);
            }
            None => writeln!(output, "error: {}: Failed loading font face", file.path())?,
        }
    }
    output.flush()?;
    Ok(Run {
        has_line: has_next(input, line)?,
        all_shaped: false,
    })
}

/// Answers the line that was read with its font, and those behind it that name the same one.
fn answer_with<F: Files + AllocGlobal + Eprint, T: Shapes, R: BufRead, W: Write>(
    rt: &F,
    texts: &mut T,
    font: &mut LoadedFont<'_>,
    line: &mut Vec<u8>,
    input: &mut R,
    output: &mut W,
) -> io::Result<Run> {
    let mut all_shaped = true;
    for _ in 0..u64::MAX {
        match answer_line(rt, texts, line.as_slice(), font, input, output)? {
            Some(is_shaped) => all_shaped &= is_shaped,
            None => {
                return Ok(Run {
                    has_line: true,
                    all_shaped,
                });
            }
        }
        output.flush()?;
        if !has_next(input, line)? {
            break;
        }
    }
    Ok(Run {
        has_line: false,
        all_shaped,
    })
}

/// Answers a line, and says whether it was shaped; `None` where it names another font, and was not
/// answered.
fn answer_line<F: Files + AllocGlobal + Eprint, T: Shapes, R: BufRead, W: Write>(
    rt: &F,
    texts: &mut T,
    line: &[u8],
    font: &mut LoadedFont<'_>,
    input: &mut R,
    output: &mut W,
) -> io::Result<Option<bool>> {
    let Ok(line) = std::str::from_utf8(line) else {
        writeln!(output, "error: not UTF-8")?;
        return Ok(Some(false));
    };
    let words = words_of_line(NAME, line)?;
    match answer_words(rt, texts, words.as_slice(), font, input, output) {
        Ok(answered) => Ok(answered),
        Err(CommandError::GivenUp) => Ok(Some(false)),
        Err(error) => {
            say(output, error)?;
            Ok(Some(false))
        }
    }
}

/// Answers words, and says whether each line was shaped; `None` where they name another font, and were
/// not answered.
fn answer_words<'a, F: Files + AllocGlobal + Eprint, T: Shapes, R: BufRead, W: Write>(
    rt: &F,
    texts: &mut T,
    words: &'a [&'a str],
    font: &mut LoadedFont<'_>,
    input: &mut R,
    output: &mut W,
) -> Result<Option<bool>, CommandError<'a>> {
    let options = options_of(words)?;
    if !font.is_named_by(&options) {
        return Ok(None);
    }
    let all_shaped = answer_options(rt, texts, &options, font, input, output)?;
    Ok(Some(all_shaped))
}
