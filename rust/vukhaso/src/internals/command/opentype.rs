// Written by tools/plain_rust from crates/shape_command. Do not edit.

//! The shaper of the program's texts.

use crate::answers::texts::{LineFont, Shapes};
use crate::buffer::{GlyphBuffer, UnicodeBuffer};
use crate::font_functions::FontFunctions;
use crate::ot_shape::{
    KeptPlans, ShapeError, Watch, shape_with_functions_and_plans, shape_with_functions_watched,
};

/// The OpenType shaper, with the plans of the texts of a font.
#[derive(Debug)]
pub struct OpenTypeShaper {
    plans: KeptPlans,
}

impl OpenTypeShaper {
    /// No plan is kept.
    pub(crate) fn new() -> Self {
        OpenTypeShaper {
            plans: KeptPlans::new(),
        }
    }
}

impl Shapes for OpenTypeShaper {
    fn anew(&self) -> Self {
        OpenTypeShaper::new()
    }

    fn shape<F: FontFunctions>(
        &mut self,
        font: &LineFont<'_, '_, '_, F>,
        text: UnicodeBuffer,
    ) -> Result<GlyphBuffer, ShapeError> {
        let plans = &mut self.plans;
        shape_with_functions_and_plans(font.face, font.functions, font.features, plans, text)
    }

    fn shape_watched<F: FontFunctions, W: Watch>(
        &mut self,
        font: &LineFont<'_, '_, '_, F>,
        text: UnicodeBuffer,
        watch: &mut W,
    ) -> Result<GlyphBuffer, ShapeError> {
        shape_with_functions_watched(font.face, font.functions, font.features, text, watch)
    }
}
