// Written by tools/plain_rust from crates/ot_normalization. Do not edit.

//! Normalization with a font, in HarfBuzz's three rounds (HarfBuzz's documentation, "Normalization"): characters are
//! taken apart where the font lacks them, marks are put in order, and pairs are composed where the font has the
//! composed character.

mod composed_again;
mod decomposition;
mod pairs;
mod parts;
mod recomposition;
mod reordering;
mod variations;

use crate::buffer::{HB_BUFFER_SCRATCH_FLAG_HAS_CGJ, hb_buffer_t, hb_glyph_info_t};
use crate::font_functions::FontFunctions;
use crate::memory::AllocError;
use crate::script_items::allows_any_order;
use crate::script_items::item::is_unicode_mark;
use crate::script_shapers::{NormalizationMode, ScriptPlan};
use composed_again::keep_composed_again;
use decomposition::decompose_all;
use pairs::Composing;
use recomposition::recompose_all;
use reordering::{reorder_marks, unhide_joiners};

/// Normalizes the characters of a text and finds a glyph for each, whose number is then its
/// `glyph_index`.
///
/// A script's shaper says whether characters are composed, what they compose to and in which order
/// marks stand. The characters are to have the properties that `set_unicode_props` gives them.
///
/// # Requires
///
/// That no output is open.
///
/// - `buffer.old.have_output ≡ false`
///
/// # Errors
///
/// `Ok(false)` where a call was refused for length. `Err(AllocError)` where memory runs out.
///
/// # Proved
///
/// ```text
/// ensures { Closes result buffer.old buffer.new }
/// ```
#[inline]
pub fn normalize<F: FontFunctions>(
    buffer: &mut hb_buffer_t,
    font: &F,
    script: &ScriptPlan,
) -> Result<bool, AllocError> {
    debug_assert!(!buffer.have_output());
    let has_marks = has_marks(buffer.info());
    keep_composed_again(buffer, font, script, has_marks);
    let composes = script.shaper.normalization_mode() != NormalizationMode::Nothing;
    if !decompose_all(buffer, font, script.shaper)? {
        return Ok(false);
    }
    if !has_marks {
        unhide_if_any(buffer);
        return Ok(true);
    }
    reorder_marks(buffer, script.shaper);
    unhide_if_any(buffer);
    if !composes {
        return Ok(true);
    }
    recompose_all(buffer, &Composing::new(font, script))
}

/// Shows the grapheme joiners that marks may have passed, where the text has any.
///
/// # Requires
///
/// - `buffer.old.have_output ≡ false`
fn unhide_if_any(buffer: &mut hb_buffer_t) {
    debug_assert!(!buffer.have_output());
    if buffer.scratch_flags & HB_BUFFER_SCRATCH_FLAG_HAS_CGJ != 0 {
        unhide_joiners(buffer);
    }
}

/// Whether a mark stands behind another character.
fn has_marks(infos: &[hb_glyph_info_t]) -> bool {
    match infos {
        [_, behind @ ..] => behind.iter().any(|info| is_unicode_mark(info)),
        [] => false,
    }
}

/// Drops the current character, of which another one in its cluster stands before it.
///
/// # Requires
///
/// - `HasCurrent buffer.old`
fn drop_behind(buffer: &mut hb_buffer_t) {
    debug_assert!(buffer.have_output() && !buffer.info().is_empty());
    if buffer.out_len() > 0 && buffer.prev().cluster == buffer.cur(0).cluster {
        buffer.skip_glyph();
    } else if allows_any_order(buffer) {
        buffer.skip_glyph();
    } else {
        buffer.delete_glyph();
    }
}
