// Written by tools/plain_rust from crates/glyph_lists. Do not edit.

//! The script and the direction of a text, guessed from its characters.

use crate::common::{Direction, Script, script};
use crate::glyph::{CharExt, hb_glyph_info_t};

/// Whether the script says nothing of the text: punctuation and digits are common to many, marks
/// inherit the script of what they stand on, and some characters have none.
fn is_neutral(script: Script) -> bool {
    matches!(script, script::COMMON | script::INHERITED | script::UNKNOWN)
}

/// The script of the first character that has one of its own.
///
/// # Requires
///
/// - `AreCharacters info.now`
///
/// # Proved
///
/// ```text
/// ensures { result ≡ guessed_script info.now }
/// ```
#[inline]
pub fn first_script(info: &[hb_glyph_info_t]) -> Option<Script> {
    debug_assert!(
        info.iter()
            .all(|glyph| char::from_u32(glyph.glyph_id).is_some())
    );
    info.iter()
        .map(|glyph| glyph.as_char().script())
        .find(|script| !is_neutral(*script))
}

/// The direction in which the script is written: from left to right where there is none, and for a
/// script that is written either way.
///
/// # Proved
///
/// ```text
/// ensures { result ≡ guessed_direction script }
/// ```
#[inline]
pub fn guess_direction(script: Option<Script>) -> Direction {
    script
        .and_then(Direction::from_script)
        .unwrap_or(Direction::LeftToRight)
}
