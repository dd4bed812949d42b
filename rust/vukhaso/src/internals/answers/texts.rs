// Written by tools/plain_rust from crates/shape_answers. Do not edit.

//! What shapes the texts of lines: the crate above says how.

use crate::buffer::{Feature, GlyphBuffer, UnicodeBuffer};
use crate::font_face::Face;
use crate::font_functions::FontFunctions;
use crate::options::options::Options;
use crate::steps::Watch;
use crate::verification::ShapeError;

/// A font of which functions answer, and the features of a line.
#[derive(Debug)]
pub struct LineFont<'a, 'f, 'o, F> {
    /// The font, of which lookups, the size and the variations are taken.
    pub face: &'a Face<'a>,
    /// What it answers.
    pub functions: &'f F,
    /// The features.
    pub features: &'o [Feature],
}

/// What shapes the texts of a font, and may keep what serves the next one.
pub trait Shapes {
    /// The same for another font.
    ///
    /// # Proved
    ///
    /// That it returns.
    fn anew(&self) -> Self;

    /// Shapes a text.
    ///
    /// # Errors
    ///
    /// `Err`: the clauses below say when.
    ///
    /// # Proved
    ///
    /// ```text
    /// ensures { IfOk result HasPositions }
    /// ```
    fn shape<F: FontFunctions>(
        &mut self,
        font: &LineFont<'_, '_, '_, F>,
        text: UnicodeBuffer,
    ) -> Result<GlyphBuffer, ShapeError>;

    /// Shapes a text, and tells of each step.
    ///
    /// # Errors
    ///
    /// `Err`: the clauses below say when.
    ///
    /// # Proved
    ///
    /// ```text
    /// ensures { IfOk result HasPositions }
    /// ```
    fn shape_watched<F: FontFunctions, W: Watch>(
        &mut self,
        font: &LineFont<'_, '_, '_, F>,
        text: UnicodeBuffer,
        watch: &mut W,
    ) -> Result<GlyphBuffer, ShapeError>;
}

/// What a command line asks for, and what shapes its texts.
#[derive(Debug)]
pub struct Asked<'o, 'a, 't, T> {
    /// The options.
    pub options: &'o Options<'a>,
    /// What shapes the texts.
    pub texts: &'t mut T,
}
