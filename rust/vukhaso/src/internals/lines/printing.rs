// Written by tools/plain_rust from crates/shape_lines. Do not edit.

//! How glyphs are printed.

use crate::buffer::{GlyphBuffer, SerializeFlags, hb_glyph_info_t};
use crate::fonts::synthetic_font::{LineNames, SyntheticFont};
use crate::line_formats::json::glyphs_json;
use crate::lines::answers::Answer;
use crate::memory::AllocError;
use crate::options::output::{Output, OutputFormat};

/// A font, and what is printed of its glyphs.
#[derive(Clone, Copy, Debug)]
pub struct GlyphPrinter<'a> {
    /// The font, as its glyphs are to be drawn.
    pub font: SyntheticFont<'a>,
    /// What is printed of them.
    pub output: Output,
}

impl GlyphPrinter<'_> {
    /// What is printed of glyphs: their text, or their objects.
    ///
    /// # Errors
    ///
    /// `Err(AllocError)` where memory ran out.
    ///
    /// # Proved
    ///
    /// ```text
    /// ensures { IfOk result (λ answer. answer_text answer ≡ glyphs_line
    ///     (record { name = N.name_of names.new; extents = N.extents_of names.new }) self.now.output glyphs.now) }
    /// ```
    #[inline]
    pub fn print<N: LineNames>(
        &self,

        names: &mut N,
        glyphs: &GlyphBuffer,
    ) -> Result<Answer, AllocError> {
        if glyphs.is_empty() {
            return Ok(Answer::Empty);
        }
        self.find_extents(names, glyphs.glyph_infos())?;
        let answer = self.print_some(names, glyphs)?;
        Ok(answer)
    }

    /// What is printed of glyphs where there are some.
    fn print_some<N: LineNames>(
        &self,

        names: &N,
        glyphs: &GlyphBuffer,
    ) -> Result<Answer, AllocError> {
        match self.output.format {
            OutputFormat::Text => self.text(names, glyphs),
            OutputFormat::Json => self.objects(names, glyphs),
            OutputFormat::Nothing => Ok(Answer::Empty),
        }
    }

    /// The text of glyphs.
    fn text<N: LineNames>(&self, names: &N, glyphs: &GlyphBuffer) -> Result<Answer, AllocError> {
        let text = glyphs.serialize(names, self.output.flags)?;
        Ok(Answer::Glyphs(text))
    }

    /// The objects of glyphs.
    fn objects<N: LineNames>(&self, names: &N, glyphs: &GlyphBuffer) -> Result<Answer, AllocError> {
        let infos = glyphs.glyph_infos();
        let positions = glyphs.glyph_positions();
        let objects = glyphs_json(names, self.output.flags, infos, positions)?;
        Ok(Answer::Objects(objects))
    }

    /// Finds the extents of glyphs, where they are printed.
    fn find_extents<N: LineNames>(
        &self,
        names: &mut N,
        infos: &[hb_glyph_info_t],
    ) -> Result<(), AllocError> {
        if self.output.flags.contains(SerializeFlags::GLYPH_EXTENTS) {
            names.find(&self.font, infos)?;
        }
        Ok(())
    }
}
