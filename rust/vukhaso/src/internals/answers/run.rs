// Written by tools/plain_rust from crates/shape_answers. Do not edit.

//! What the program does.

use crate::answers::drawing::draw_text;
use crate::answers::lines::{answer_lines, answer_paragraph};
use crate::answers::shaper::{LineShaper, LineState};
use crate::answers::texts::{Asked, Shapes};
use crate::buffer::{GlyphId, NoGlyphNames, SerializeFlags};
use crate::fonts::font_file::FontFile;
use crate::fonts::synthetic_font::{LineNames, SyntheticFont, SyntheticNames};
use crate::host::Files;
use crate::host::fs;
use crate::host::io::{self, BufRead, BufReader, BufWriter, Write};
use crate::host::{AllocGlobal, AsStr, Eprint};
use crate::kept::kept_line::KeptLine;
use crate::kept::loaded_font::{LoadedFont, take_names};
use crate::lines::errors::CommandError;
use crate::lines::fonts::read_font_file;
use crate::lines::reading::Reading;
use crate::options::options::{Options, Shaper, TextSource};
use crate::options::words::options_of;
use std::mem;

/// Answers a command line, whose first word is the name of the program, and says whether each line was
/// shaped. The font's file is read unless it was read last, and held for the next command line.
///
/// # Errors
///
/// `Err`: the clauses below say when.
///
/// # Proved
///
/// ```text
/// ensures { OnOk result (IsSome file.new.path) }
/// ```
#[inline]
pub fn answer_command<
    'a,
    F: Files + AllocGlobal + Eprint,
    T: Shapes,
    S: AsStr,
    R: BufRead,
    W: Write,
>(
    rt: &F,
    texts: &T,
    words: &'a [S],
    file: &mut FontFile,
    input: &mut R,
    output: &mut W,
) -> Result<bool, CommandError<'a>> {
    let options = options_of(words)?;
    answer_with_file(rt, texts, &options, file, input, output)
}

/// Answers what a command line asks for, with the font of the file that it names.
fn answer_with_file<'a, F: Files + AllocGlobal + Eprint, T: Shapes, R: BufRead, W: Write>(
    rt: &F,
    texts: &T,
    options: &Options<'a>,
    file: &mut FontFile,
    input: &mut R,
    output: &mut W,
) -> Result<bool, CommandError<'a>> {
    read_font_file(rt, options, file)?;
    let mut texts = texts.anew();
    match LoadedFont::new(file, options.font)? {
        Some(mut font) => answer_options(rt, &mut texts, options, &mut font, input, output),
        None => Err(CommandError::Face(options.font_file)),
    }
}

/// Answers what a command line asks for, with its font. The font's names are found only where they are
/// asked for.
pub(crate) fn answer_options<
    'a,
    F: Files + AllocGlobal + Eprint,
    T: Shapes,
    R: BufRead,
    W: Write,
>(
    rt: &F,
    texts: &mut T,
    options: &Options<'a>,
    font: &mut LoadedFont<'_>,
    input: &mut R,
    output: &mut W,
) -> Result<bool, CommandError<'a>> {
    font.vary(options.variations.as_slice())?;
    let asked = Asked { options, texts };
    match options.output_file {
        None => answer_into(rt, asked, font, input, output),
        Some(file) => answer_into_file(rt, asked, font, input, file),
    }
}

/// Answers what a command line asks for, into a file.
fn answer_into_file<'a, F: Files + AllocGlobal + Eprint, T: Shapes, R: BufRead>(
    rt: &F,
    asked: Asked<'_, 'a, '_, T>,
    font: &mut LoadedFont<'_>,
    input: &mut R,
    file: &'a str,
) -> Result<bool, CommandError<'a>> {
    let mut output = match create(rt, file) {
        Ok(output) => output,
        Err(error) => return Err(CommandError::OutputFile { file, error }),
    };
    let answered = answer_into(rt, asked, font, input, &mut output)?;
    match output.flush() {
        Ok(()) => Ok(answered),
        Err(error) => Err(CommandError::Output(error)),
    }
}

/// A file that is written piece by piece, in place of one of this name.
fn create<F: Files + AllocGlobal>(rt: &F, file: &str) -> io::Result<BufWriter<F::File>> {
    BufWriter::new(fs::create(rt, file)?)
}

/// Answers what a command line asks for. The names of glyphs are found where they are asked for, or
/// their extents.
fn answer_into<'a, F: Files + AllocGlobal + Eprint, T: Shapes, R: BufRead, W: Write>(
    rt: &F,
    asked: Asked<'_, 'a, '_, T>,
    font: &mut LoadedFont<'_>,
    input: &mut R,
    output: &mut W,
) -> Result<bool, CommandError<'a>> {
    let options = asked.options;
    if options.svg {
        return draw_text(asked, font, output);
    }
    if !asks_font(options.output.flags) && !options.line.glyphs {
        return answer_named(rt, asked, font, NoGlyphNames, input, output).0;
    }
    let names = take_names(&mut font.names, &font.face)?;
    if synthetic_of(font, options).is_plain() {
        let (answered, names) = answer_named(rt, asked, font, names, input, output);
        font.names = Some(names);
        return answered;
    }
    let names = SyntheticNames::new(names);
    let (answered, names) = answer_named(rt, asked, font, names, input, output);
    font.names = Some(names.into_names());
    answered
}

/// Answers what a command line asks for, with the names of glyphs, which it gives back. There is an
/// error where the shaping of a line was given up.
fn answer_named<
    'a,
    F: Files + AllocGlobal + Eprint,
    T: Shapes,
    N: LineNames,
    R: BufRead,
    W: Write,
>(
    rt: &F,
    asked: Asked<'_, 'a, '_, T>,
    font: &mut LoadedFont<'_>,
    names: N,
    input: &mut R,
    output: &mut W,
) -> (Result<bool, CommandError<'a>>, N) {
    let Asked { options, texts } = asked;
    let kept = mem::replace(&mut font.kept, KeptLine::new());
    let fresh = texts.anew();
    let shaper = shaper_of(font, options);
    let mut state = LineState {
        texts: mem::replace(texts, fresh),
        names,
        kept,
        advances: shaper.advances(),
    };
    let answered = answer_text(rt, &shaper, &mut state, &options.text, input, output);
    let LineState {
        texts: used,
        names,
        mut kept,
        advances: _,
    } = state;
    *texts = used;
    let answered = unless_given_up(answered, &mut kept);
    font.kept = kept;
    (answered, names)
}

/// What became of a text: an error where the shaping of one of its lines was given up, which is said
/// once.
fn unless_given_up<'a>(
    answered: Result<bool, CommandError<'a>>,
    kept: &mut KeptLine,
) -> Result<bool, CommandError<'a>> {
    let has_given_up = kept.has_given_up;
    kept.has_given_up = false;
    if has_given_up && answered.is_ok() {
        return Err(CommandError::GivenUp);
    }
    answered
}

/// The font as its glyphs are to be drawn.
fn synthetic_of<'a>(font: &'a LoadedFont<'_>, options: &Options<'_>) -> SyntheticFont<'a> {
    let not_found = match options.line.shaper {
        Shaper::OpenType if !options.line.glyphs => options.line.not_found_glyph,
        _ => GlyphId(0),
    };
    SyntheticFont::new(&font.face, options.font.synthetic, not_found)
}

/// How lines are shaped with a font and printed.
pub(crate) fn shaper_of<'a>(font: &'a LoadedFont<'_>, options: &'a Options<'_>) -> LineShaper<'a> {
    LineShaper {
        face: &font.face,
        font: synthetic_of(font, options),
        options: &options.line,
        iterations: options.iterations,
        output: options.output,
        single_par: options.single_par,
        reading: Reading::of(&options.text),
    }
}

/// Whether names or extents of glyphs are printed.
fn asks_font(flags: SerializeFlags) -> bool {
    !flags.contains(SerializeFlags::NO_GLYPH_NAMES) || flags.contains(SerializeFlags::GLYPH_EXTENTS)
}

/// Answers a text.
fn answer_text<
    'a,
    F: Files + AllocGlobal + Eprint,
    T: Shapes,
    N: LineNames,
    R: BufRead,
    W: Write,
>(
    rt: &F,
    shaper: &LineShaper<'_>,
    state: &mut LineState<'_, N, T>,
    text: &TextSource<'a>,
    input: &mut R,
    output: &mut W,
) -> Result<bool, CommandError<'a>> {
    let mut given = match text {
        TextSource::Given(text) => text.as_bytes(),
        TextSource::CodePoints(text) => text.as_bytes(),
        TextSource::Input => return answer_all(rt, shaper, state, "-", input, output),
        TextSource::File(file) => {
            return match open(rt, file) {
                Ok(mut reader) => answer_all(rt, shaper, state, *file, &mut reader, output),
                Err(error) => Err(CommandError::Text { file: *file, error }),
            };
        }
    };
    answer_all(rt, shaper, state, "TEXT", &mut given, output)
}

/// A file that is read piece by piece.
fn open<F: Files + AllocGlobal>(rt: &F, file: &str) -> io::Result<BufReader<F::File>> {
    BufReader::new(fs::open(rt, file)?)
}

/// Answers a text line by line, or as one line.
fn answer_all<'a, F: AllocGlobal + Eprint, T: Shapes, N: LineNames, R: BufRead, W: Write>(
    rt: &F,
    shaper: &LineShaper<'_>,
    state: &mut LineState<'_, N, T>,
    file: &'a str,
    reader: &mut R,
    writer: &mut W,
) -> Result<bool, CommandError<'a>> {
    let answered = if shaper.single_par {
        answer_paragraph(rt, shaper, state, reader, writer)
    } else {
        answer_lines(rt, shaper, state, reader, writer)
    };
    match answered {
        Ok(all_shaped) => Ok(all_shaped),
        Err(error) => Err(CommandError::of_lines(file, error)),
    }
}
