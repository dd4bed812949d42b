// Written by tools/plain_rust from crates/ot_normalization. Do not edit.

//! A base and its marks, with a variation selector among them.

use super::decomposition::{is_variation_selector, set_current_glyph};
use crate::buffer::{
    HB_BUFFER_SCRATCH_FLAG_HAS_VARIATION_SELECTOR_FALLBACK, hb_buffer_t, hb_glyph_info_t,
};
use crate::font_functions::FontFunctions;
use crate::memory::AllocError;
use crate::script_items::glyph_info::{clear_default_ignorable, set_variation_selector};

/// Reads so many characters. A character and a variation selector behind it become one where the font
/// has a glyph for the two; nothing is taken apart.
///
/// # Requires
///
/// - `buffer.old.have_output ≡ true`
pub(crate) fn read_variations<F: FontFunctions>(
    buffer: &mut hb_buffer_t,
    font: &F,
    count: usize,
) -> Result<bool, AllocError> {
    debug_assert!(buffer.have_output());
    let end = buffer.idx().saturating_add(count);
    for _turn in 0..count {
        if buffer.idx() >= end || buffer.lookahead_len() == 0 {
            break;
        }
        if !read_next(buffer, font, end)? {
            return Ok(false);
        }
    }
    Ok(true)
}

/// Reads a character, and the variation selectors behind it that stand before a place of the input.
///
/// # Requires
///
/// - `HasCurrent buffer.old`
fn read_next<F: FontFunctions>(
    buffer: &mut hb_buffer_t,
    font: &F,
    end: usize,
) -> Result<bool, AllocError> {
    debug_assert!(buffer.have_output() && !buffer.info().is_empty());
    if buffer.idx().saturating_add(1) >= end
        || buffer.lookahead_len() == 1
        || !is_variation_selector(buffer.cur(1).glyph_id)
    {
        return buffer.next_glyph();
    }
    if !read_variation(buffer, font)? {
        return Ok(false);
    }
    keep_selectors(buffer, end)
}

/// Reads a character and the variation selector behind it.
///
/// # Requires
///
/// - `opened: buffer.old.have_output ≡ true`
/// - `glyphs: 1 < length buffer.old.input`
fn read_variation<F: FontFunctions>(
    buffer: &mut hb_buffer_t,
    font: &F,
) -> Result<bool, AllocError> {
    debug_assert!(buffer.have_output());
    debug_assert!(1 < buffer.info().len());
    let character = buffer.cur(0).glyph_id;
    let selector = buffer.cur(1).glyph_id;
    match font.variation_glyph(character, selector) {
        Some(glyph) => {
            set_current_glyph(buffer, u32::from(glyph.0));
            buffer.replace_glyphs(2, 1, &[character])
        }
        None => keep_both(buffer),
    }
}

/// Reads a character and a variation selector that the font does not know.
///
/// # Requires
///
/// - `opened: buffer.old.have_output ≡ true`
/// - `glyphs: 1 < length buffer.old.input`
fn keep_both(buffer: &mut hb_buffer_t) -> Result<bool, AllocError> {
    debug_assert!(buffer.have_output());
    debug_assert!(1 < buffer.info().len());
    if !buffer.next_glyph()? {
        return Ok(false);
    }
    buffer.scratch_flags =
        buffer.scratch_flags | HB_BUFFER_SCRATCH_FLAG_HAS_VARIATION_SELECTOR_FALLBACK;
    let is_shown = buffer.not_found_variation_selector.is_some();
    note_selector(buffer, is_shown);
    buffer.next_glyph()
}

/// Says that the current character is a variation selector that the font does not know, and whether it
/// is shown.
///
/// # Requires
///
/// - `HasCurrent buffer.old`
fn note_selector(buffer: &mut hb_buffer_t, is_shown: bool) {
    debug_assert!(buffer.have_output() && !buffer.info().is_empty());
    note(buffer.cur_mut(0), is_shown);
}

/// Says that a character is a variation selector that the font does not know, and whether it is shown.
fn note(info: &mut hb_glyph_info_t, is_shown: bool) {
    set_variation_selector(info);
    if is_shown {
        clear_default_ignorable(info);
    }
}

/// Reads the variation selectors that are left before a place of the input.
///
/// # Requires
///
/// - `buffer.old.have_output ≡ true`
fn keep_selectors(buffer: &mut hb_buffer_t, end: usize) -> Result<bool, AllocError> {
    debug_assert!(buffer.have_output());
    for _turn in buffer.idx()..end {
        if buffer.idx() >= end
            || buffer.lookahead_len() == 0
            || !is_variation_selector(buffer.cur(0).glyph_id)
        {
            break;
        }
        if !buffer.next_glyph()? {
            return Ok(false);
        }
    }
    Ok(true)
}
