// Written by tools/plain_rust from crates/ot_positions. Do not edit.

//! The widths of spaces that a font has no glyph for (HarfBuzz's `_hb_ot_shape_fallback_spaces`).

use crate::buffer::hb_glyph_info_t;
use crate::common::GlyphId;
use crate::font_face::Face;
use crate::font_functions::FontFunctions;
use crate::glyph::hb_unicode_funcs_t::{
    SPACE_4_EM_18, SPACE_EM, SPACE_EM_2, SPACE_EM_3, SPACE_EM_4, SPACE_EM_5, SPACE_EM_6,
    SPACE_EM_16, SPACE_FIGURE, SPACE_NARROW, SPACE_PUNCTUATION,
};
use crate::memory::AllocError;
use crate::ot_positions::glyph_info::has_ligated;
use crate::ot_positions::kept_positions::FontPositions;
use crate::script_items::glyph_info::{is_unicode_space, space_fallback};

/// Whether an item may be a space that the font has no glyph for, if the text has some: a space that no
/// lookup made from several glyphs.
pub(crate) fn is_fallback_space(info: &hb_glyph_info_t, has_spaces: bool) -> bool {
    has_spaces && is_unicode_space(info) && !has_ligated(info)
}

/// The advance of a space that the font may have no glyph for; of its glyph the font says `own`. The
/// kind of the space decides: it is a part of an em, or that of another character. A space of no such
/// kind that has the buffer's invisible glyph is a quarter of an em.
///
/// # Requires
///
/// - `AreTheFonts (F.may_advance positions.old.font.now) positions.old.is_horizontal positions.old.kept`
pub(crate) fn space_advance<F: FontFunctions>(
    info: &hb_glyph_info_t,
    own: i32,
    positions: &mut FontPositions<F>,
    invisible: Option<GlyphId>,
) -> Result<i32, AllocError> {
    let is_horizontal = positions.is_horizontal;
    let em = em_along(positions.face, is_horizontal);
    let is_invisible = invisible.is_some_and(|glyph| u32::from(glyph.0) == info.glyph_id);
    let own = if is_invisible { advance(em / 4) } else { own };
    let space = space_fallback(info);
    Ok(match space {
        SPACE_EM | SPACE_EM_2 | SPACE_EM_3 | SPACE_EM_4 | SPACE_EM_5 | SPACE_EM_6 | SPACE_EM_16 => {
            part_of_em(em, space, is_horizontal)
        }
        SPACE_4_EM_18 => advance(em * 4 / 18),
        SPACE_FIGURE => first_advance(positions, "0123456789")?.unwrap_or(own),
        SPACE_PUNCTUATION => first_advance(positions, ".,")?.unwrap_or(own),
        SPACE_NARROW => own / 2,
        _ => own,
    })
}

/// An em along the line. Vertical lines run down.
fn em_along(face: &Face, is_horizontal: bool) -> i64 {
    if is_horizontal {
        i64::from(face.scale.x)
    } else {
        -i64::from(face.scale.y)
    }
}

/// One of so many parts of an em, to the nearest whole number.
///
/// # Requires
///
/// - `low: negsuc (2 ^ 32) ≤ℤ em`
/// - `high: em ≤ℤ pos (2 ^ 32)`
fn part_of_em(em: i64, parts: u8, is_horizontal: bool) -> i32 {
    let half = i64::from(parts / 2);
    let em = if is_horizontal { em + half } else { em - half };
    advance(em / i64::from(parts.max(1)))
}

/// The advance of the first of the characters that the font has.
///
/// # Requires
///
/// - `AreTheFonts (F.may_advance positions.old.font.now) positions.old.is_horizontal positions.old.kept`
fn first_advance<F: FontFunctions>(
    positions: &mut FontPositions<F>,
    characters: &str,
) -> Result<Option<i32>, AllocError> {
    let font = positions.font;
    let found = characters
        .chars()
        .find_map(|character| font.nominal_glyph(character as u32));
    match found {
        Some(glyph) => Ok(Some(positions.advance(glyph)?)),
        None => Ok(None),
    }
}

/// The number as an advance.
fn advance(value: i64) -> i32 {
    i32::try_from(value).unwrap_or(i32::MAX)
}
