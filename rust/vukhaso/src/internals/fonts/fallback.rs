// Written by tools/plain_rust from crates/shape_fonts. Do not edit.

//! The shaper `fallback`, which asks nothing of a font but the glyphs of characters, and their advances.

use crate::buffer::{
    CharExt, Direction, GlyphBuffer, GlyphId, GlyphPosition, UnicodeBuffer, hb_buffer_t,
    hb_glyph_info_t,
};
use crate::font_functions::FontFunctions;
use crate::memory::AllocError;

/// A glyph at its position.
#[derive(Clone, Copy, Debug)]
struct Placed {
    glyph: GlyphId,
    position: GlyphPosition,
}

/// The position of a glyph that is drawn where the pen is, and does not move it.
const NO_POSITION: GlyphPosition = GlyphPosition {
    x_advance: 0,
    y_advance: 0,
    x_offset: 0,
    y_offset: 0,
    var: 0,
};

/// Shapes a text as HarfBuzz's `hb-fallback-shape.cc` does: each character becomes its glyph, with its
/// advance, in the cluster that it has. A character that is invisible by default becomes the glyph of
/// the space, without a width, where the font has one.
///
/// # Errors
///
/// `Err(AllocError)` where memory ran out.
///
/// # Proved
///
/// That it returns.
#[inline]
pub fn shape_fallback<F: FontFunctions>(
    font: &F,
    text: UnicodeBuffer,
) -> Result<GlyphBuffer, AllocError> {
    let direction = text.direction();
    let mut buffer = text.into_buffer();
    buffer.clear_positions();
    place_all(&mut buffer, font, direction)?;
    if direction.is_backward() {
        buffer.reverse();
    }
    Ok(GlyphBuffer::from_buffer(buffer))
}

/// Puts the glyph of each character in its place.
///
/// # Requires
///
/// - `closed: buffer.old.have_output ≡ false`
/// - `placed: IsSome buffer.old.positions`
fn place_all<F: FontFunctions>(
    buffer: &mut hb_buffer_t,
    font: &F,
    direction: Direction,
) -> Result<(), AllocError> {
    debug_assert!(!buffer.have_output());
    debug_assert!(buffer.have_positions());
    let space = font.nominal_glyph(0x20);
    for i in 0..buffer.len() {
        let Some(info) = buffer.info().get(i) else {
            break;
        };
        let placed = placed_character(font, info.glyph_id, space, direction)?;
        put(buffer, i, placed);
    }
    Ok(())
}

/// The glyph of a character, and its position.
fn placed_character<F: FontFunctions>(
    font: &F,
    character: u32,
    space: Option<GlyphId>,
    direction: Direction,
) -> Result<Placed, AllocError> {
    if let Some(glyph) = space {
        if is_default_ignorable(character) {
            return Ok(Placed {
                glyph,
                position: NO_POSITION,
            });
        }
    }
    let glyph = font.nominal_glyph(character).unwrap_or(GlyphId(0));
    let position = position_of(font, glyph, direction)?;
    Ok(Placed { glyph, position })
}

/// The position of a glyph in a line of this direction.
fn position_of<F: FontFunctions>(
    font: &F,
    glyph: GlyphId,
    direction: Direction,
) -> Result<GlyphPosition, AllocError> {
    if direction.is_horizontal() {
        return Ok(GlyphPosition {
            x_advance: font.glyph_h_advance(glyph),
            ..NO_POSITION
        });
    }
    let (x, y) = font.glyph_v_origin(glyph)?;
    Ok(GlyphPosition {
        y_advance: font.glyph_v_advance(glyph),
        x_offset: x.wrapping_neg(),
        y_offset: y.wrapping_neg(),
        ..NO_POSITION
    })
}

/// Whether a character is invisible by default.
fn is_default_ignorable(character: u32) -> bool {
    match char::from_u32(character) {
        Some(character) => character.is_default_ignorable(),
        None => false,
    }
}

/// Puts a glyph at a place.
///
/// # Requires
///
/// - `closed: buffer.old.have_output ≡ false`
/// - `placed: IsSome buffer.old.positions`
fn put(buffer: &mut hb_buffer_t, place: usize, placed: Placed) {
    debug_assert!(!buffer.have_output());
    debug_assert!(buffer.have_positions());
    put_position(buffer, place, placed.position);
    put_glyph(buffer.info_slice_mut(), place, placed.glyph);
}

/// Puts a glyph at a place, in the cluster of the character there.
fn put_glyph(infos: &mut [hb_glyph_info_t], place: usize, glyph: GlyphId) {
    if place < infos.len() {
        infos[place].glyph_id = u32::from(glyph.0);
    }
}

/// Puts a position at a place.
///
/// # Requires
///
/// - `closed: buffer.old.have_output ≡ false`
/// - `placed: IsSome buffer.old.positions`
fn put_position(buffer: &mut hb_buffer_t, place: usize, position: GlyphPosition) {
    debug_assert!(!buffer.have_output());
    debug_assert!(buffer.have_positions());
    if let Some(own) = buffer.pos_mut().get_mut(place) {
        *own = position;
    }
}
