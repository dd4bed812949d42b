// Written by tools/plain_rust from crates/glyph_text. Do not edit.

//! What each format writes of a glyph: what the font says of it, and where it is drawn.

use crate::common::GlyphId;
use crate::glyph::{GlyphExtents, GlyphNames, GlyphPosition, SerializeFlags, hb_glyph_info_t};

/// Where the next glyph is drawn, from the start of the line, under `NO_ADVANCES`; and else the start.
#[derive(Clone, Copy, Debug)]
pub struct Pen {
    /// To the right.
    pub x: i128,
    /// Upward.
    pub y: i128,
}

impl Pen {
    /// Where a glyph is drawn.
    ///
    /// # Requires
    ///
    /// That no coordinate is past 2 to the 96.
    ///
    /// - `IsNear self`
    ///
    /// # Proved
    ///
    /// ```text
    /// ensures x { result.x ≡ self.x +ℤ position.now.x_offset }
    /// ensures y { result.y ≡ self.y +ℤ position.now.y_offset }
    /// ```
    #[inline(always)]
    pub fn plus_offset(self, position: &GlyphPosition) -> Pen {
        Pen {
            x: self.x + i128::from(position.x_offset),
            y: self.y + i128::from(position.y_offset),
        }
    }

    /// The pen behind a glyph: no position is read where advances are written.
    ///
    /// # Requires
    ///
    /// That no coordinate is past 2 to the 96.
    ///
    /// - `IsNear self`
    ///
    /// # Proved
    ///
    /// ```text
    /// ensures x { result.x ≡ moved flags self.x position.now.x_advance }
    /// ensures y { result.y ≡ moved flags self.y position.now.y_advance }
    /// ensures near_x { nat_abs result.x ≤ nat_abs self.x + 2147483648 }
    /// ensures near_y { nat_abs result.y ≤ nat_abs self.y + 2147483648 }
    /// ```
    #[inline(always)]
    pub fn behind(self, flags: SerializeFlags, position: &GlyphPosition) -> Pen {
        if !flags.contains(SerializeFlags::NO_ADVANCES) {
            return self;
        }
        Pen {
            x: self.x + i128::from(position.x_advance),
            y: self.y + i128::from(position.y_advance),
        }
    }
}

/// The glyph of this number; none past 16 bits.
fn glyph_of(info: &hb_glyph_info_t) -> Option<GlyphId> {
    let number = u16::try_from(info.glyph_id).ok()?;
    Some(GlyphId(number))
}

/// The name of a glyph, where the font has one for it. A number past 65535 is no glyph's: the font is
/// not asked for it.
///
/// # Proved
///
/// ```text
/// ensures { option_copied result ≡ said_of (F.name_of font.now) info.now.glyph_id }
/// ```
#[inline]
pub fn name_of<'a, F: GlyphNames>(font: &'a F, info: &hb_glyph_info_t) -> Option<&'a str> {
    match glyph_of(info) {
        Some(glyph) => font.glyph_name(glyph),
        None => None,
    }
}

/// The extents of a glyph, zeros where the font knows none.
///
/// # Proved
///
/// ```text
/// ensures { result ≡ unwrap_or (said_of (F.extents_of font.now) info.now.glyph_id) zero_extents }
/// ```
#[inline]
pub fn extents_of<F: GlyphNames>(font: &F, info: &hb_glyph_info_t) -> GlyphExtents {
    let known = match glyph_of(info) {
        Some(glyph) => font.glyph_extents(glyph),
        None => None,
    };
    known.unwrap_or(GlyphExtents {
        x_bearing: 0,
        y_bearing: 0,
        width: 0,
        height: 0,
    })
}
