// Written by tools/plain_rust from crates/shape_answers. Do not edit.

//! What a line is answered with: how it is shaped.

use crate::answers::texts::{LineFont, Shapes};
use crate::buffer::{Direction, GlyphBuffer, GlyphId, UnicodeBuffer};
use crate::font_face::Face;
use crate::font_functions::OwnFunctions;
use crate::fonts::fallback::shape_fallback;
use crate::fonts::kept_advances::KeptAdvances;
use crate::fonts::synthetic_font::{LineNames, SyntheticFont};
use crate::glyphs::edits::{Edits, buffer_of};
use crate::glyphs::glyph_line::read_glyphs;
use crate::kept::kept_line::KeptLine;
use crate::kept::trace::{StepPrinter, Trace};
use crate::lines::answers::Answer;
use crate::lines::characters::shown_characters;
use crate::lines::printing::GlyphPrinter;
use crate::lines::reading::Reading;
use crate::lines::text::{fill, lossy_text};
use crate::memory::{AllocError, Vec};
use crate::options::options::{LineOptions, Shaper};
use crate::options::output::Output;
use crate::verification::ShapeError;

/// What is printed of a line.
#[derive(Debug)]
pub struct Answered {
    /// The steps of its shaping; none where they are not printed.
    pub trace: Trace,
    /// The list of its characters; empty where that is not shown.
    pub characters: Vec<u8>,
    /// What it is answered with.
    pub answer: Answer,
}

/// What lines are answered by that changes from line to line.
#[derive(Debug)]
pub struct LineState<'a, N, T> {
    /// What shapes their texts.
    pub texts: T,
    /// Names and extents of glyphs.
    pub names: N,
    /// What is kept of the line before.
    pub kept: KeptLine,
    /// The advances of glyphs of the lines before, where the font is varied.
    pub advances: Option<KeptAdvances<'a>>,
}

/// A font, and how lines are shaped with it and printed.
#[derive(Clone, Copy, Debug)]
pub struct LineShaper<'a> {
    /// The font.
    pub face: &'a Face<'a>,
    /// What it answers, as its glyphs are to be drawn.
    pub(crate) font: SyntheticFont<'a>,
    /// How each line is shaped.
    pub options: &'a LineOptions<'a>,
    /// How often each line is shaped.
    pub iterations: u32,
    /// What is printed of lines and of their glyphs.
    pub output: Output,
    /// Whether the text is a single line.
    pub single_par: bool,
    /// What is seen of the bytes of the text.
    pub reading: Reading,
}

impl<'a> LineShaper<'a> {
    /// A font that keeps the advances of its glyphs, where these are asked for and may cost much.
    ///
    /// # Proved
    ///
    /// That it returns.
    #[inline]
    pub fn advances(&self) -> Option<KeptAdvances<'a>> {
        let is_varied = self.font.is_plain() && !self.face.coordinates().is_empty();
        if is_varied && self.asks_advances() {
            Some(KeptAdvances::new(self.face))
        } else {
            None
        }
    }

    /// Whether lines are shaped horizontally, and their steps not printed.
    fn asks_advances(&self) -> bool {
        let options = self.options;
        let is_down = matches!(
            options.direction,
            Direction::TopToBottom | Direction::BottomToTop
        );
        options.shaper == Shaper::OpenType && !options.glyphs && !is_down && !self.output.trace
    }

    /// How the steps of shaping a line are printed.
    pub(crate) fn step_printer(&self) -> StepPrinter<'a> {
        StepPrinter {
            font: self.font,
            options: self.options,
            output: self.output,
        }
    }

    /// The answer to a line.
    ///
    /// # Errors
    ///
    /// `Err(AllocError)` where memory ran out.
    ///
    /// # Proved
    ///
    /// ```text
    /// ensures answer { IfOk result (λ answered. IsAnswer self.now.output (answer_text answered.answer)) }
    /// ensures list { IfOk result (λ answered. IsList answered.characters.items) }
    /// ```
    #[inline]
    pub fn answer<N: LineNames, T: Shapes>(
        &self,

        state: &mut LineState<'_, N, T>,
        line: &[u8],
    ) -> Result<Answered, AllocError> {
        match std::str::from_utf8(line) {
            Ok(line) => self.answer_to_text(state, line),
            Err(_) => {
                let line = lossy_text(line)?;
                self.answer_to_text(state, line.as_str())
            }
        }
    }

    /// The answer to a line that is UTF-8.
    fn answer_to_text<N: LineNames, T: Shapes>(
        &self,

        state: &mut LineState<'_, N, T>,
        line: &str,
    ) -> Result<Answered, AllocError> {
        let characters = shown_characters(self.options, self.output.shown, line)?;
        let mut trace = Trace::new();
        let answer = self.answer_to_line(state, &mut trace, line)?;
        Ok(Answered {
            trace,
            characters,
            answer,
        })
    }

    /// What a line is answered with, which is a text or writes glyphs.
    fn answer_to_line<N: LineNames, T: Shapes>(
        &self,

        state: &mut LineState<'_, N, T>,
        trace: &mut Trace,
        line: &str,
    ) -> Result<Answer, AllocError> {
        if self.options.glyphs {
            return self.answer_to_glyphs(state, line);
        }
        if let Some(advances) = &mut state.advances {
            advances.keep_characters(line);
        }
        self.shape_unprinted(state, trace, line)?;
        match self.filled_text(state, line)? {
            Some(text) => self.shape(state, trace, text),
            None => Ok(Answer::Failed),
        }
    }

    /// The text of a line, in the buffer that is kept; `None` where it is too long.
    fn filled_text<N: LineNames, T: Shapes>(
        &self,

        state: &mut LineState<'_, N, T>,
        line: &str,
    ) -> Result<Option<UnicodeBuffer>, AllocError> {
        let mut text = state.kept.take_text(self.options);
        if fill(self.options, line, &mut text)? {
            Ok(Some(text))
        } else {
            Ok(None)
        }
    }

    /// The answer to a line that writes glyphs.
    fn answer_to_glyphs<N: LineNames, T: Shapes>(
        &self,

        state: &mut LineState<'_, N, T>,
        line: &str,
    ) -> Result<Answer, AllocError> {
        let mut text = state.kept.take_text(self.options);
        // An empty text is not too long.
        let _fits = fill(self.options, "", &mut text)?;
        let direction = text.direction();
        let read = read_glyphs(self.face, &self.font, &state.names, direction, line)?;
        let edits = Edits {
            not_found: GlyphId(0),
            slant: 0.0,
            ..self.edits(direction)
        };
        match buffer_of(text, read.infos.as_slice(), read.positions.as_slice())? {
            Some(glyphs) => self.print_edited(state, &edits, glyphs),
            None => Ok(Answer::Failed),
        }
    }

    /// Shapes a line once less than is asked for: what it gives is not printed.
    fn shape_unprinted<N: LineNames, T: Shapes>(
        &self,

        state: &mut LineState<'_, N, T>,
        trace: &mut Trace,
        line: &str,
    ) -> Result<(), AllocError> {
        for _ in 1..self.iterations {
            let Some(text) = self.filled_text(state, line)? else {
                return Ok(());
            };
            match self.shape_text(state, trace, text) {
                Ok(glyphs) => state.kept.text = Some(glyphs.clear()),
                Err(ShapeError::Memory) => return Err(AllocError),
                Err(_) => return Ok(()),
            }
        }
        Ok(())
    }

    /// What the text of a line is answered with.
    fn shape<N: LineNames, T: Shapes>(
        &self,

        state: &mut LineState<'_, N, T>,
        trace: &mut Trace,
        text: UnicodeBuffer,
    ) -> Result<Answer, AllocError> {
        let edits = self.edits(text.direction());
        match self.shape_text(state, trace, text) {
            Ok(glyphs) => self.print_edited(state, &edits, glyphs),
            Err(ShapeError::TooLong) => Ok(Answer::Failed),
            Err(ShapeError::OtherPlan) => Ok(Answer::Failed),
            Err(ShapeError::Unverified(error)) => Ok(Answer::Unverified(error)),
            Err(ShapeError::Memory) => Err(AllocError),
        }
    }

    /// Shapes a text by the shaper that is chosen.
    fn shape_text<N: LineNames, T: Shapes>(
        &self,
        state: &mut LineState<'_, N, T>,
        trace: &mut Trace,
        text: UnicodeBuffer,
    ) -> Result<GlyphBuffer, ShapeError> {
        if self.options.shaper == Shaper::Fallback {
            return Ok(shape_fallback(&self.font, text)?);
        }
        if self.output.trace {
            return self.shape_traced(&mut state.texts, trace, text);
        }
        if let Some(advances) = &mut state.advances {
            let glyphs = state.texts.shape(&self.line_font(advances), text)?;
            advances.keep_glyphs(glyphs.glyph_infos());
            return Ok(glyphs);
        }
        if self.font.is_plain() {
            let own = OwnFunctions { face: self.face };
            return state.texts.shape(&self.line_font(&own), text);
        }
        state.texts.shape(&self.line_font(&self.font), text)
    }

    /// Shapes a text, whose steps are kept to be printed.
    fn shape_traced<T: Shapes>(
        &self,
        texts: &mut T,
        trace: &mut Trace,
        text: UnicodeBuffer,
    ) -> Result<GlyphBuffer, ShapeError> {
        if self.font.is_plain() {
            let own = OwnFunctions { face: self.face };
            return texts.shape_watched(&self.line_font(&own), text, trace);
        }
        texts.shape_watched(&self.line_font(&self.font), text, trace)
    }

    /// The font of which these functions answer.
    fn line_font<'f, F>(&self, functions: &'f F) -> LineFont<'a, 'f, 'a, F> {
        LineFont {
            face: self.face,
            functions,
            features: self.options.features.as_slice(),
        }
    }

    /// What the options change of the glyphs of a text in this direction.
    fn edits(&self, direction: Direction) -> Edits {
        let slant = match self.options.shaper {
            Shaper::OpenType => self.font.slant,
            Shaper::Fallback => 0.0,
        };
        Edits {
            not_found: self.font.not_found,
            slant,
            has_lookups: self.face.has_gpos,
            normalizes: self.options.normalize_glyphs,
            is_backward: direction.is_backward(),
        }
    }

    /// What is printed of glyphs with the changes that options ask for.
    fn print_edited<N: LineNames, T: Shapes>(
        &self,

        state: &mut LineState<'_, N, T>,
        edits: &Edits,
        glyphs: GlyphBuffer,
    ) -> Result<Answer, AllocError> {
        match edits.edited(glyphs)? {
            Some(glyphs) => self.print_and_keep(state, glyphs),
            None => Ok(Answer::Failed),
        }
    }

    /// What is printed of glyphs, whose buffer is kept for the next line.
    fn print_and_keep<N: LineNames, T: Shapes>(
        &self,

        state: &mut LineState<'_, N, T>,
        glyphs: GlyphBuffer,
    ) -> Result<Answer, AllocError> {
        let printer = GlyphPrinter {
            font: self.font,
            output: self.output,
        };
        let answer = printer.print(&mut state.names, &glyphs)?;
        state.kept.has_given_up |= glyphs.shaping_failed();
        state.kept.text = Some(glyphs.clear());
        Ok(answer)
    }
}
