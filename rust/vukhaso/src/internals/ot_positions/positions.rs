// Written by tools/plain_rust from crates/ot_positions. Do not edit.

//! Where glyphs stand before any lookup moves them.

use crate::buffer::{
    GlyphPosition, HB_BUFFER_SCRATCH_FLAG_HAS_SPACE_FALLBACK, hb_buffer_t, hb_glyph_info_t,
};
use crate::common::GlyphId;
use crate::font_face::Face;
use crate::font_functions::FontFunctions;
use crate::memory::AllocError;
use crate::ot_positions::fallback_spaces::{is_fallback_space, space_advance};
use crate::ot_positions::kept_positions::FontPositions;

/// Gives each glyph the font's advance at the size of its face, and in vertical lines its vertical
/// origin. A space that the font has no glyph for is as wide as its kind says.
///
/// # Requires
///
/// That no output is open.
///
/// - `buffer.old.have_output ≡ false`
///
/// # Errors
///
/// `Err(AllocError)` where memory runs out for the points of an outline that varies.
///
/// # Proved
///
/// ```text
/// ensures advances { is_horizontal buffer.old.direction ≡ true → IfOk result (λ _. IfSome buffer.new.positions
///     (AreAdvanced (F.may_advance font.now) (has_fallback_spaces buffer.old) buffer.old.input)) }
/// ensures rest { buffer.new ≡ record buffer.old { positions = buffer.new.positions } }
/// ensures closed { buffer.new.have_output ≡ false }
/// ensures placed { IsSome buffer.new.positions }
/// ensures keeps { KeepsClusters buffer.old buffer.new }
/// ```
#[inline]
pub fn position_glyphs<F: FontFunctions>(
    buffer: &mut hb_buffer_t,
    face: &Face,
    font: &F,
) -> Result<(), AllocError> {
    debug_assert!(!buffer.have_output());
    let is_horizontal = is_horizontal_line(buffer);
    let has_spaces = has_fallback_spaces(buffer);
    buffer.clear_positions();
    let is_varied = !face.coordinates().is_empty();
    if is_horizontal && !has_spaces && !is_varied {
        advance_glyphs(buffer, font);
        return Ok(());
    }
    let mut positions = FontPositions::new(face, font, is_horizontal);
    place_glyphs(buffer, &mut positions, has_spaces)
}

/// Whether the line is horizontal.
pub(crate) fn is_horizontal_line(buffer: &hb_buffer_t) -> bool {
    buffer.direction.is_horizontal()
}

/// Whether some character is a space that the font has no glyph for.
fn has_fallback_spaces(buffer: &hb_buffer_t) -> bool {
    buffer.scratch_flags & HB_BUFFER_SCRATCH_FLAG_HAS_SPACE_FALLBACK != 0
}

/// Gives each glyph its position; a space that the font has no glyph for is as wide as its kind says,
/// if there may be some.
///
/// # Requires
///
/// - `closed: buffer.old.have_output ≡ false`
/// - `zero: buffer.old.positions ≡ Some (replicate (length buffer.old.input) zero_position)`
/// - `kept: AreTheFonts (F.may_advance positions.old.font.now) positions.old.is_horizontal positions.old.kept`
fn place_glyphs<F: FontFunctions>(
    buffer: &mut hb_buffer_t,
    positions: &mut FontPositions<F>,
    has_spaces: bool,
) -> Result<(), AllocError> {
    debug_assert!(!buffer.have_output());
    let invisible = buffer.invisible;
    for i in 0..buffer.len() {
        let position = position_of(info_at(buffer.info(), i), positions, has_spaces, invisible)?;
        set_position(buffer, i, position);
    }
    Ok(())
}

/// The position of an item; if it may be a space that the font has no glyph for, as wide as its kind
/// says.
///
/// # Requires
///
/// - `AreTheFonts (F.may_advance positions.old.font.now) positions.old.is_horizontal positions.old.kept`
fn position_of<F: FontFunctions>(
    info: &hb_glyph_info_t,
    positions: &mut FontPositions<F>,
    may_be_space: bool,
    invisible: Option<GlyphId>,
) -> Result<GlyphPosition, AllocError> {
    let mut position = positions.position(glyph_of(info))?;
    let is_space = is_fallback_space(info, may_be_space);
    if !is_space {
        return Ok(position);
    }
    if positions.is_horizontal {
        position.x_advance = space_advance(info, position.x_advance, positions, invisible)?;
        return Ok(position);
    }
    position.y_advance = space_advance(info, position.y_advance, positions, invisible)?;
    Ok(position)
}

/// Gives each glyph of a horizontal line the font's advance.
///
/// # Requires
///
/// - `closed: buffer.old.have_output ≡ false`
/// - `zero: buffer.old.positions ≡ Some (replicate (length buffer.old.input) zero_position)`
fn advance_glyphs<F: FontFunctions>(buffer: &mut hb_buffer_t, font: &F) {
    debug_assert!(!buffer.have_output());
    for i in 0..buffer.len() {
        let position = advanced(font, glyph_of(info_at(buffer.info(), i)));
        set_position(buffer, i, position);
    }
}

/// The position of a glyph of a horizontal line.
#[inline(always)]
pub(crate) fn advanced<F: FontFunctions>(font: &F, glyph: GlyphId) -> GlyphPosition {
    GlyphPosition {
        x_advance: font.glyph_h_advance(glyph),
        ..GlyphPosition::default()
    }
}

/// The item at a place.
///
/// # Requires
///
/// - `place < length infos.now`
#[inline(always)]
fn info_at(infos: &[hb_glyph_info_t], place: usize) -> &hb_glyph_info_t {
    debug_assert!(place < infos.len());
    &infos[place]
}

/// The glyph of an item.
#[inline(always)]
fn glyph_of(info: &hb_glyph_info_t) -> GlyphId {
    GlyphId(u16::try_from(info.glyph_id).unwrap_or(0))
}

/// Sets the position at a place.
///
/// # Requires
///
/// Positions, and that no output is open.
///
/// - `closed: buffer.old.have_output ≡ false`
/// - `placed: IsSome buffer.old.positions`
///
/// # Proved
///
/// ```text
/// ensures is { buffer.new ≡ position_changed (λ _. position) place buffer.old }
/// ensures placed { IsSome buffer.new.positions }
/// ```
#[inline(always)]
pub fn set_position(buffer: &mut hb_buffer_t, place: usize, position: GlyphPosition) {
    debug_assert!(!buffer.have_output());
    debug_assert!(buffer.have_positions());
    set_in(buffer.pos_mut(), place, position);
}

/// Sets the position at a place of these.
#[inline(always)]
fn set_in(positions: &mut [GlyphPosition], place: usize, position: GlyphPosition) {
    if place < positions.len() {
        positions[place] = position;
    }
}
