// Written by tools/plain_rust from crates/shape_glyphs. Do not edit.

//! What options change of glyphs that are shaped.

use crate::buffer::{
    GlyphBuffer, GlyphId, GlyphPosition, UnicodeBuffer, hb_buffer_t, hb_glyph_info_t,
};
use crate::font_variations::rounding::{float, rounded};
use crate::glyphs::normalized::normalize_glyphs;
use crate::memory::{AllocError, Vec};

/// What is changed.
#[derive(Clone, Copy, Debug)]
pub struct Edits {
    /// What stands in place of glyph 0.
    pub not_found: GlyphId,
    /// How far to the right what a position moves up is moved.
    pub slant: f32,
    /// Whether lookups placed the marks, which are slanted then.
    pub has_lookups: bool,
    /// Whether the glyphs of a cluster are put in their nominal order.
    pub normalizes: bool,
    /// Whether the line runs backward.
    pub is_backward: bool,
}

impl Edits {
    /// Whether nothing is changed.
    fn is_none(&self) -> bool {
        self.not_found.0 == 0 && self.slant == 0.0 && !self.normalizes
    }

    /// The glyphs with these changes; `None` where a buffer does not hold as many.
    ///
    /// # Errors
    ///
    /// `Err(AllocError)` where memory ran out.
    ///
    /// # Proved
    ///
    /// That it returns.
    #[inline]
    pub fn edited(&self, glyphs: GlyphBuffer) -> Result<Option<GlyphBuffer>, AllocError> {
        if self.is_none() {
            return Ok(Some(glyphs));
        }
        let mut infos = Vec::from_slice(glyphs.glyph_infos())?;
        let mut positions = Vec::from_slice(glyphs.glyph_positions())?;
        self.edit(&mut infos, &mut positions);
        buffer_of(glyphs.clear(), infos.as_slice(), positions.as_slice())
    }

    /// Makes these changes.
    ///
    /// # Requires
    ///
    /// - `length positions.old ≡ length infos.old`
    fn edit(&self, infos: &mut [hb_glyph_info_t], positions: &mut [GlyphPosition]) {
        debug_assert!(positions.len() == infos.len());
        for info in infos.iter_mut() {
            show(info, self.not_found);
        }
        if self.slant != 0.0 {
            for position in positions.iter_mut() {
                if self.has_lookups || has_advance(position) {
                    slant_offset(position, self.slant);
                }
            }
        }
        if self.normalizes {
            normalize_glyphs(infos, positions, self.is_backward);
        }
    }
}

/// Puts a glyph in place of glyph 0.
fn show(info: &mut hb_glyph_info_t, not_found: GlyphId) {
    if info.glyph_id == 0 {
        info.glyph_id = u32::from(not_found.0);
    }
}

/// Moves to the right what stands higher than the line.
fn slant_offset(position: &mut GlyphPosition, slant: f32) {
    if position.y_offset != 0 {
        let moved = rounded(slant * float(position.y_offset));
        position.x_offset = position.x_offset.wrapping_add(moved);
    }
}

/// Whether a glyph moves the pen.
fn has_advance(position: &GlyphPosition) -> bool {
    position.x_advance != 0 || position.y_advance != 0
}

/// A buffer of glyphs, in the room of an empty text; `None` where it does not hold as many.
///
/// # Errors
///
/// `Err(AllocError)` where memory ran out.
///
/// # Proved
///
/// That it returns.
#[inline]
pub fn buffer_of(
    text: UnicodeBuffer,
    infos: &[hb_glyph_info_t],
    positions: &[GlyphPosition],
) -> Result<Option<GlyphBuffer>, AllocError> {
    let mut text = text;
    for info in infos {
        if !text.add('\0', info.cluster)? {
            return Ok(None);
        }
    }
    let mut buffer = text.into_buffer();
    buffer.clear_positions();
    put_infos(&mut buffer, infos);
    put_positions(&mut buffer, positions);
    Ok(Some(GlyphBuffer::from_buffer(buffer)))
}

/// Puts glyphs in the places of those of a buffer.
///
/// # Requires
///
/// - `closed: buffer.old.have_output ≡ false`
/// - `placed: IsSome buffer.old.positions`
fn put_infos(buffer: &mut hb_buffer_t, infos: &[hb_glyph_info_t]) {
    debug_assert!(!buffer.have_output());
    debug_assert!(buffer.have_positions());
    copy_infos(buffer.info_slice_mut(), infos);
}

/// Puts positions in the places of those of a buffer.
///
/// # Requires
///
/// - `closed: buffer.old.have_output ≡ false`
/// - `placed: IsSome buffer.old.positions`
fn put_positions(buffer: &mut hb_buffer_t, positions: &[GlyphPosition]) {
    debug_assert!(!buffer.have_output());
    debug_assert!(buffer.have_positions());
    copy_positions(buffer.pos_mut(), positions);
}

/// Puts glyphs in the places of others.
fn copy_infos(own: &mut [hb_glyph_info_t], infos: &[hb_glyph_info_t]) {
    for i in 0..own.len() {
        if let Some(info) = infos.get(i) {
            own[i] = *info;
        }
    }
}

/// Puts positions in the places of others.
fn copy_positions(own: &mut [GlyphPosition], positions: &[GlyphPosition]) {
    for i in 0..own.len() {
        if let Some(position) = positions.get(i) {
            own[i] = *position;
        }
    }
}
