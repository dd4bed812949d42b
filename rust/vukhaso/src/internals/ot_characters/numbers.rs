// Written by tools/plain_rust from crates/ot_characters. Do not edit.

//! Numbers in a line that runs from left to right in a script that does not: alone they run as the line does.

use crate::buffer::{hb_buffer_t, hb_glyph_info_t};
use crate::ot_characters::glyph_info::{is_letter, is_number};
use crate::ot_characters::native_direction::is_against_script;
use crate::script_items::{Tie, Ties, keep_tied};

/// Whether the text has digits or regional indicators, and no letters.
pub(crate) fn are_numbers(infos: &[hb_glyph_info_t]) -> bool {
    !has_letter(infos) && has_number(infos)
}

/// Whether one of the characters is a letter.
fn has_letter(infos: &[hb_glyph_info_t]) -> bool {
    infos.iter().any(|info| is_letter(info))
}

/// Whether one of the characters is a digit or a regional indicator.
fn has_number(infos: &[hb_glyph_info_t]) -> bool {
    infos.iter().any(|info| is_number(info))
}

/// Marks as unsafe to break where a part of such a line would run otherwise than the whole: numbers
/// without the letters that turn them, and other characters without the numbers that keep them.
///
/// # Requires
///
/// - `buffer.old.have_output ≡ false`
///
/// # Proved
///
/// ```text
/// ensures closed { buffer.new.have_output ≡ false }
/// ensures keeps { KeepsClusters buffer.old buffer.new }
/// ```
#[inline]
pub fn keep_numbers(buffer: &mut hb_buffer_t) {
    debug_assert!(!buffer.have_output());
    if is_against_script(buffer) {
        let is_turned = !are_numbers(buffer.info());
        keep_tied(buffer, &LineOfNumbers { is_turned });
    }
}

/// Which characters of such a line hang on which.
#[derive(Clone, Copy, Debug)]
struct LineOfNumbers {
    /// Whether the line is turned: it has letters, or no numbers.
    is_turned: bool,
}

impl Ties for LineOfNumbers {
    fn tie_of(&self, infos: &[hb_glyph_info_t], place: usize) -> Tie {
        match infos.get(place) {
            Some(info) if self.is_turned => tie_to_letters(info),
            Some(info) => tie_to_numbers(info),
            None => Tie::Loose,
        }
    }
}

/// In a line that is turned numbers hang on letters.
fn tie_to_letters(info: &hb_glyph_info_t) -> Tie {
    if is_letter(info) {
        Tie::Anchor
    } else if is_number(info) {
        Tie::Hanging
    } else {
        Tie::Loose
    }
}

/// In a line that is not turned what is no number hangs on numbers.
fn tie_to_numbers(info: &hb_glyph_info_t) -> Tie {
    if is_number(info) {
        Tie::Anchor
    } else {
        Tie::Hanging
    }
}
