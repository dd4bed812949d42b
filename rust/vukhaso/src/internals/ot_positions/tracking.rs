// Written by tools/plain_rust from crates/ot_positions. Do not edit.

//! Glyphs that stand closer or farther apart at a size, by Apple's table `trak`: HarfBuzz's `hb_aat_layout_track`.

use crate::aat_tables::tracking::Tracking;
use crate::buffer::{GlyphPosition, hb_buffer_t, hb_glyph_info_t};
use crate::font_face::Face;
use crate::ot_positions::positions::is_horizontal_line;
use crate::script_items::glyph_info::is_continuation;

/// How far glyphs are moved apart, in the direction of the line.
#[derive(Clone, Copy, Debug)]
pub(crate) struct Space {
    /// Whether the line is horizontal.
    pub is_horizontal: bool,
    /// How much is added to the advance.
    pub advance: i32,
    /// How far the glyph itself is moved.
    pub offset: i32,
}

/// Moves graphemes apart that have a bit of the mask, as far as the font says it for its size in
/// points.
///
/// # Requires
///
/// Positions, and that no output is open.
///
/// - `closed: buffer.old.have_output ≡ false`
/// - `placed: IsSome buffer.old.positions`
///
/// # Proved
///
/// ```text
/// ensures is { buffer.new ≡ tracking.track face.now mask buffer.old }
/// ensures closed { buffer.new.have_output ≡ false }
/// ensures placed { IsSome buffer.new.positions }
/// ensures keeps { KeepsClusters buffer.old buffer.new }
/// ```
#[inline]
pub fn track(buffer: &mut hb_buffer_t, face: &Face, mask: u32) {
    debug_assert!(!buffer.have_output());
    debug_assert!(buffer.have_positions());
    if is_idle(face, mask) {
        return;
    }
    let space = space_of(face, is_horizontal_line(buffer));
    move_all_apart(buffer, &space, mask);
}

/// Whether no glyph is moved: there is no mask, or the font has no size in points.
fn is_idle(face: &Face, mask: u32) -> bool {
    mask == 0 || !(0.0 < face.points_per_em)
}

/// How far glyphs are moved apart in a font at its size.
fn space_of(face: &Face, is_horizontal: bool) -> Space {
    let units = units_of(face, is_horizontal);
    Space {
        is_horizontal,
        advance: at_size(face, is_horizontal, units),
        offset: at_size(face, is_horizontal, units / 2),
    }
}

/// How many font units the table adds at the size of a font in points.
fn units_of(face: &Face, is_horizontal: bool) -> i32 {
    Tracking::new(face.layout.trak).at(is_horizontal, face.points_per_em)
}

/// Font units along the line, at the size of the font.
fn at_size(face: &Face, is_horizontal: bool, units: i32) -> i32 {
    let tracking = Tracking::new(face.layout.trak);
    let size = if is_horizontal {
        face.scale.x
    } else {
        face.scale.y
    };
    tracking.scaled(units, size, face.units_per_em)
}

/// Moves the glyphs that begin a grapheme, and have a bit of the mask.
///
/// # Requires
///
/// - `closed: buffer.old.have_output ≡ false`
/// - `placed: IsSome buffer.old.positions`
fn move_all_apart(buffer: &mut hb_buffer_t, space: &Space, mask: u32) {
    debug_assert!(!buffer.have_output());
    debug_assert!(buffer.have_positions());
    for i in 0..buffer.len() {
        if is_tracked(buffer.info(), i, mask) {
            move_apart_at(buffer, i, space);
        }
    }
}

/// Whether the glyph at a place begins a grapheme, and has a bit of the mask.
///
/// # Requires
///
/// - `place < length infos.now`
#[inline(always)]
fn is_tracked(infos: &[hb_glyph_info_t], place: usize, mask: u32) -> bool {
    debug_assert!(place < infos.len());
    let info = &infos[place];
    info.mask & mask != 0 && (place == 0 || !is_continuation(info))
}

/// Moves the glyph at a place.
///
/// # Requires
///
/// - `closed: buffer.old.have_output ≡ false`
/// - `placed: IsSome buffer.old.positions`
#[inline(always)]
fn move_apart_at(buffer: &mut hb_buffer_t, place: usize, space: &Space) {
    debug_assert!(!buffer.have_output());
    debug_assert!(buffer.have_positions());
    move_in(buffer.pos_mut(), place, space);
}

/// Moves the glyph at a place of these positions.
#[inline(always)]
fn move_in(positions: &mut [GlyphPosition], place: usize, space: &Space) {
    if place < positions.len() {
        move_apart(&mut positions[place], space);
    }
}

/// Moves a glyph.
fn move_apart(position: &mut GlyphPosition, space: &Space) {
    if space.is_horizontal {
        position.x_advance = position.x_advance.wrapping_add(space.advance);
        position.x_offset = position.x_offset.wrapping_add(space.offset);
    } else {
        position.y_advance = position.y_advance.wrapping_add(space.advance);
        position.y_offset = position.y_offset.wrapping_add(space.offset);
    }
}
