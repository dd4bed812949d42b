// Written by tools/plain_rust from crates/ot_shape. Do not edit.

//! The shaping of texts whose glyphs are tested.

use crate::buffer::{Feature, GlyphBuffer, hb_buffer_t};
use crate::font_face::Face;
use crate::font_functions::FontFunctions;
use crate::ot_plan::{TextPlan, Unwatched};
use crate::ot_shape::shaping::shape_planned;
use crate::verification::{Original, ShapeError, ShapesParts, verify};

/// How a text and parts of it are shaped.
#[derive(Debug)]
struct Shaping<'a, F> {
    face: &'a Face<'a>,
    font: &'a F,
    plan: &'a TextPlan,
    features: &'a [Feature],
}

impl<F: FontFunctions> ShapesParts for Shaping<'_, F> {
    fn shape(&self, buffer: hb_buffer_t) -> Result<GlyphBuffer, ShapeError> {
        shape_planned(
            self.face,
            self.font,
            self.plan,
            self.features,
            buffer,
            &mut Unwatched,
        )
    }
}

/// Shapes the text of a buffer by a plan, and tests its glyphs.
///
/// # Requires
///
/// - `buffer.have_output ≡ false`
pub(crate) fn shape_verified<F: FontFunctions>(
    face: &Face,
    font: &F,
    plan: &TextPlan,
    features: &[Feature],
    buffer: hb_buffer_t,
) -> Result<GlyphBuffer, ShapeError> {
    debug_assert!(!buffer.have_output());
    let text = Original::of(&buffer)?;
    let glyphs = shape_planned(face, font, plan, features, buffer, &mut Unwatched)?;
    let shaping = Shaping {
        face,
        font,
        plan,
        features,
    };
    verify(&shaping, &text, &glyphs)?;
    Ok(glyphs)
}
