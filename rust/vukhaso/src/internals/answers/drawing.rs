// Written by tools/plain_rust from crates/shape_answers. Do not edit.

//! A text whose shaping is drawn step by step.

use crate::answers::texts::{Asked, LineFont, Shapes};
use crate::buffer::hb_buffer_t;
use crate::font_functions::OwnFunctions;
use crate::glyphs::picture::{Picture, RowName};
use crate::host::io::Write;
use crate::kept::loaded_font::{LoadedFont, take_names};
use crate::lines::errors::CommandError;
use crate::lines::text::{empty_text, fill, given_text};
use crate::memory::AllocError;
use crate::steps::{Step, Watch};
use crate::verification::ShapeError;

/// A picture, to which each step of shaping adds a row.
#[derive(Debug)]
struct Drawing {
    picture: Picture,
}

impl Watch for Drawing {
    /// Adds a row for the step, unless it changed nothing that is drawn.
    fn step(&mut self, step: Step, buffer: &hb_buffer_t) -> Result<(), AllocError> {
        self.picture.add(name_of(step), buffer)
    }
}

/// The name of a step's row.
fn name_of(step: Step) -> RowName {
    match step {
        Step::Characters => RowName::Characters,
        Step::Glyphs => RowName::Step("cmap"),
        Step::Substituted(lookup) => RowName::Lookup("GSUB", lookup),
        Step::Advances => RowName::Step("advances"),
        Step::Positioned(lookup) => RowName::Lookup("GPOS", lookup),
        Step::Kerned => RowName::Step("kern"),
        Step::Shaped => RowName::Step("shaped"),
    }
}

/// Draws the steps of shaping a text with a font, as a picture in SVG, and says whether the text was
/// shaped.
pub(crate) fn draw_text<'a, T: Shapes, W: Write>(
    asked: Asked<'_, 'a, '_, T>,
    font: &mut LoadedFont<'_>,
    output: &mut W,
) -> Result<bool, CommandError<'a>> {
    let text = given_text(&asked.options.text)?;
    let mut drawing = Drawing {
        picture: Picture::new(),
    };
    let is_shaped = shape_text(asked, font, text, &mut drawing)?;
    let names = take_names(&mut font.names, &font.face)?;
    let drawn = drawing.picture.draw(&names);
    font.names = Some(names);
    write_picture(output, drawn?.as_str())?;
    Ok(is_shaped)
}

/// Writes a picture.
fn write_picture<'a, W: Write>(output: &mut W, picture: &str) -> Result<(), CommandError<'a>> {
    match output.write_all(picture.as_bytes()) {
        Ok(()) => Ok(()),
        Err(error) => Err(CommandError::Output(error)),
    }
}

/// Shapes a text, and draws each step. The answer is whether it was shaped.
fn shape_text<T: Shapes>(
    asked: Asked<'_, '_, '_, T>,
    font: &LoadedFont<'_>,
    text: &str,
    drawing: &mut Drawing,
) -> Result<bool, AllocError> {
    let options = &asked.options.line;
    let mut characters = empty_text(options);
    if !fill(options, text, &mut characters)? {
        return Ok(false);
    }
    let own = OwnFunctions { face: &font.face };
    let font = LineFont {
        face: &font.face,
        functions: &own,
        features: options.features.as_slice(),
    };
    match asked.texts.shape_watched(&font, characters, drawing) {
        Ok(glyphs) => Ok(!glyphs.shaping_failed()),
        Err(ShapeError::Memory) => Err(AllocError),
        Err(_) => Ok(false),
    }
}
