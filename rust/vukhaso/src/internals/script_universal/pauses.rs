// Written by tools/plain_rust from crates/script_universal. Do not edit.

//! What is done at the pauses of Khmer and of Myanmar: syllables are found, and put in order once.

use crate::buffer::hb_buffer_t;
use crate::memory::AllocError;
use crate::ot_map::Pause;
use crate::script_syllables::dotted_circle::CircleKind;
use crate::script_syllables::grammar::Grammar;
use crate::script_syllables::reordering::{SyllableOrder, reorder};
use crate::script_syllables::syllables::find_syllables;
use crate::script_syllables::{Category, FontForms, Machine, Position};

/// The kind of syllables without a base.
pub(crate) const BROKEN: u8 = 1;

const CIRCLE: CircleKind = CircleKind {
    category: Category::DottedCircle as u8,
    position: Position::Start,
    repha: None,
    broken: BROKEN,
};

/// A shaper that puts the glyphs of syllables in order before the basic features.
pub trait ReorderingShaper: SyllableOrder {
    /// The machine that finds syllables.
    ///
    /// # Proved
    ///
    /// That it returns.
    fn machine(&self) -> Machine<'static>;
}

/// What is done at a pause.
///
/// # Requires
///
/// - `buffer.old.have_output ≡ false`
///
/// # Errors
///
/// `Ok(false)` where the text would become too long. `Err(AllocError)` where memory ran out.
///
/// # Proved
///
/// ```text
/// ensures { Reorders result buffer.old buffer.new }
/// ```
#[inline]
pub fn pause<S: ReorderingShaper, F: FontForms>(
    shaper: &S,
    buffer: &mut hb_buffer_t,
    font: &F,
    pause: Pause,
) -> Result<bool, AllocError> {
    debug_assert!(!buffer.have_output());
    match pause {
        Pause::SetUpSyllables => {
            let grammar = Grammar {
                machine: shaper.machine(),
                broken: BROKEN,
                passes_over: false,
            };
            find_syllables(buffer, &grammar);
            Ok(true)
        }
        Pause::InitialReordering => reorder(buffer, font, CIRCLE, shaper),
        _ => Ok(true),
    }
}
