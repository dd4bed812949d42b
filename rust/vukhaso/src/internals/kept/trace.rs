// Written by tools/plain_rust from crates/shape_kept. Do not edit.

//! The steps of shaping a line, and how they are printed.

use crate::buffer::{GlyphPosition, SerializeFlags, hb_buffer_t, hb_glyph_info_t};
use crate::fonts::synthetic_font::{LineNames, SyntheticFont};
use crate::glyphs::edits::buffer_of;
use crate::line_formats::characters::characters_list;
use crate::line_formats::heads::{Shown, head};
use crate::lines::answers::Answer;
use crate::lines::printing::GlyphPrinter;
use crate::lines::text::empty_text;
use crate::memory::{AllocError, String, Vec};
use crate::options::options::LineOptions;
use crate::options::output::Output;
use crate::steps::{Step, Watch};

/// What the buffer is after a step.
#[derive(Debug)]
struct Told {
    step: Step,
    items: Vec<hb_glyph_info_t>,
    /// The positions, where they are on.
    positions: Option<Vec<GlyphPosition>>,
}

/// The steps of shaping a line, which it is told as the line is shaped.
#[derive(Debug)]
pub struct Trace {
    steps: Vec<Told>,
}

impl Trace {
    /// No step yet.
    ///
    /// # Proved
    ///
    /// That it returns.
    #[inline]
    pub fn new() -> Self {
        Trace { steps: Vec::new() }
    }
}

impl Watch for Trace {
    /// Keeps what the step left.
    fn step(&mut self, step: Step, buffer: &hb_buffer_t) -> Result<(), AllocError> {
        let items = Vec::from_slice(buffer.info())?;
        let positions = if buffer.have_positions() {
            Some(Vec::from_slice(buffer.pos())?)
        } else {
            None
        };
        self.steps.push(Told {
            step,
            items,
            positions,
        })?;
        Ok(())
    }
}

/// How the steps of shaping a line are printed.
#[derive(Clone, Copy, Debug)]
pub struct StepPrinter<'a> {
    /// The font, as its glyphs are to be drawn.
    pub font: SyntheticFont<'a>,
    /// How the line is shaped.
    pub options: &'a LineOptions<'a>,
    /// What is printed of the line.
    pub output: Output,
}

/// What is printed of the steps of shaping the line of this number: nothing where that is not asked
/// for.
///
/// # Errors
///
/// `Err(AllocError)` where memory ran out.
///
/// # Proved
///
/// ```text
/// ensures { IfOk result (λ text. IsTrace printer.now.output text.items) }
/// ```
#[inline]
pub fn trace_lines<N: LineNames>(
    printer: &StepPrinter<'_>,
    names: &mut N,
    number: u64,
    trace: &Trace,
) -> Result<Vec<u8>, AllocError> {
    let mut text = Vec::new();
    if !printer.output.trace {
        return Ok(text);
    }
    write_steps(printer, names, number, trace, &mut text)?;
    Ok(text)
}

/// Writes the steps of shaping the line of this number.
fn write_steps<N: LineNames>(
    printer: &StepPrinter<'_>,
    names: &mut N,
    number: u64,
    trace: &Trace,
    text: &mut Vec<u8>,
) -> Result<(), AllocError> {
    let shown = Shown {
        text: false,
        characters: false,
        number: printer.output.shown.number,
    };
    let before = head(shown, number, b"", b"")?;
    for told in trace.steps.iter() {
        text.extend_from_slice(before.as_slice())?;
        write_words(told.step, text)?;
        write_items(printer, names, told, text)?;
        text.push(b'\n')?;
    }
    Ok(())
}

/// Writes what stands before the items that a step left.
fn write_words(step: Step, text: &mut Vec<u8>) -> Result<(), AllocError> {
    let mut words = String::new();
    push_words(&mut words, step)?;
    text.extend_from_slice(words.as_bytes())
}

/// Adds the message of a step, in HarfBuzz's words where it has one.
fn push_words(words: &mut String, step: Step) -> Result<(), AllocError> {
    words.push_str("trace: ")?;
    match step {
        Step::Characters => words.push_str("end normalize")?,
        Step::Glyphs => words.push_str("end map glyphs")?,
        Step::Substituted(lookup) | Step::Positioned(lookup) => {
            write!(words, "end lookup {lookup}")?;
        }
        Step::Advances => words.push_str("end position")?,
        Step::Kerned => words.push_str("end table kern")?,
        Step::Shaped => words.push_str("end shape")?,
    }
    words.push_str("\tbuffer: ")
}

/// Writes the items that a step left.
fn write_items<N: LineNames>(
    printer: &StepPrinter<'_>,
    names: &mut N,
    told: &Told,
    text: &mut Vec<u8>,
) -> Result<(), AllocError> {
    if matches!(told.step, Step::Characters) {
        let list = characters_list(told.items.as_slice())?;
        return text.extend_from_slice(list.as_slice());
    }
    match glyphs_answer(printer, names, told)? {
        Answer::Glyphs(glyphs) => write_in_brackets(text, glyphs.as_bytes()),
        Answer::Objects(objects) => write_in_brackets(text, objects.as_slice()),
        Answer::Empty | Answer::Failed | Answer::Unverified(_) => Ok(()),
    }
}

/// Writes bytes in brackets.
fn write_in_brackets(text: &mut Vec<u8>, bytes: &[u8]) -> Result<(), AllocError> {
    text.push(b'[')?;
    text.extend_from_slice(bytes)?;
    text.push(b']')?;
    Ok(())
}

/// The glyphs that a step left, as glyphs are answered; without positions where there are none yet.
fn glyphs_answer<N: LineNames>(
    printer: &StepPrinter<'_>,
    names: &mut N,
    told: &Told,
) -> Result<Answer, AllocError> {
    let (positions, flags) = match &told.positions {
        Some(positions) => (positions.as_slice(), printer.output.flags),
        None => {
            let none: &[GlyphPosition] = &[];
            (
                none,
                printer.output.flags.union(SerializeFlags::NO_POSITIONS),
            )
        }
    };
    let text = empty_text(printer.options);
    let Some(glyphs) = buffer_of(text, told.items.as_slice(), positions)? else {
        return Ok(Answer::Failed);
    };
    let glyph_printer = GlyphPrinter {
        font: printer.font,
        output: Output {
            flags,
            ..printer.output
        },
    };
    glyph_printer.print(names, &glyphs)
}
