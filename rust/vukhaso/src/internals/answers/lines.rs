// Written by tools/plain_rust from crates/shape_answers. Do not edit.

//! The lines of a text, and their answers.

use crate::answers::shaper::{LineShaper, LineState};
use crate::answers::texts::Shapes;
use crate::fonts::synthetic_font::LineNames;
use crate::host::io::{self, BufRead, ErrorKind, Read, Write};
use crate::host::{AllocGlobal, Eprint};
use crate::kept::trace::trace_lines;
use crate::line_formats::heads::head;
use crate::lines::answers::{put, write_answer};
use crate::lines::errors::{LinesError, read_error};
use crate::lines::reading::{keep_seen, next_line};
use crate::lines::text::lossy_text;
use crate::memory::Vec;

/// Answers each line of a text, and says whether all of them were shaped. A line feed ends a line, and
/// the last line may lack it. One line is held at a time.
///
/// # Errors
///
/// `Err`: the clauses below say when.
///
/// # Proved
///
/// ```text
/// ensures { OnOk result (AnswersAll shaper.now.reading (IsShown shaper.now.output)
///     (R.remaining reader.old) (R.remaining reader.new)
///     (W.contents writer.old) (W.contents writer.new)) }
/// ```
#[inline]
pub fn answer_lines<F: AllocGlobal + Eprint, T: Shapes, N: LineNames, R: BufRead, W: Write>(
    rt: &F,
    shaper: &LineShaper<'_>,
    state: &mut LineState<'_, N, T>,
    reader: &mut R,
    writer: &mut W,
) -> Result<bool, LinesError> {
    let mut all_shaped = true;
    let mut line = Vec::new();
    for number in 1..u64::MAX {
        let found = next_line(reader, shaper.reading, &mut line)?;
        if !found {
            return Ok(all_shaped);
        }
        let is_shaped = answer_line(rt, shaper, state, number, line.as_slice(), writer)?;
        all_shaped &= is_shaped;
    }
    Err(LinesError::Read(io::Error::from(ErrorKind::Other)))
}

/// Answers a text as one line, unless it is empty, and says whether it was shaped.
///
/// # Errors
///
/// `Err`: the clauses below say when.
///
/// # Proved
///
/// ```text
/// ensures { OnOk result (AnswersParagraph shaper.now.reading (IsShown shaper.now.output)
///     (R.remaining reader.old) (R.remaining reader.new)
///     (W.contents writer.old) (W.contents writer.new)) }
/// ```
#[inline]
pub fn answer_paragraph<F: AllocGlobal + Eprint, T: Shapes, N: LineNames, R: Read, W: Write>(
    rt: &F,
    shaper: &LineShaper<'_>,
    state: &mut LineState<'_, N, T>,
    reader: &mut R,
    writer: &mut W,
) -> Result<bool, LinesError> {
    let mut text = Vec::new();
    match reader.read_to_end(&mut text) {
        Ok(_) => {}
        Err(error) => return Err(read_error(error)),
    }
    keep_seen(shaper.reading, &mut text, 0)?;
    if text.is_empty() {
        return Ok(true);
    }
    let is_shaped = answer_line(rt, shaper, state, 1, text.as_slice(), writer)?;
    Ok(is_shaped)
}

/// Answers a line of this number, and says whether it was shaped.
fn answer_line<F: AllocGlobal + Eprint, T: Shapes, N: LineNames, W: Write>(
    rt: &F,
    shaper: &LineShaper<'_>,
    state: &mut LineState<'_, N, T>,
    number: u64,
    line: &[u8],
    writer: &mut W,
) -> Result<bool, LinesError> {
    let answered = shaper.answer(state, line)?;
    let steps = trace_lines(
        &shaper.step_printer(),
        &mut state.names,
        number,
        &answered.trace,
    )?;
    tell(rt, steps.as_slice())?;
    let characters = answered.characters.as_slice();
    let before = head(shaper.output.shown, number, line, characters)?;
    put(writer, before.as_slice())?;
    write_answer(writer, &answered.answer)?;
    Ok(answered.answer.is_shaped())
}

/// Says the steps of shaping on standard error.
fn tell<F: AllocGlobal + Eprint>(rt: &F, steps: &[u8]) -> Result<(), LinesError> {
    if steps.is_empty() {
        return Ok(());
    }
    let text = lossy_text(steps)?;
    match rt.eprint(&text) {
        Ok(()) => Ok(()),
        Err(error) => Err(LinesError::Write(error)),
    }
}
