// Written by tools/plain_rust from crates/shape_fonts. Do not edit.

//! What a font answers whose glyphs are drawn bolder and slanted, and in which another glyph stands for glyph 0.

use crate::buffer::{GlyphExtents, GlyphId, GlyphNames, NoGlyphNames, hb_glyph_info_t};
use crate::font_face::{Face, FaceNames};
use crate::font_functions::{FontFunctions, OwnFunctions};
use crate::font_variations::rounding::{float, rounded};
use crate::memory::AllocError;
use crate::memory::BTreeMap;
use crate::numbers::saturating_f32_to_i32;
use crate::options::synthetic::Synthetic;

/// A font at its size, of which the glyphs are drawn bolder and slanted. Glyph 0 has the measures of the glyph that stands for
/// characters that the font lacks.
#[derive(Clone, Copy, Debug)]
pub struct SyntheticFont<'a> {
    /// The font.
    own: OwnFunctions<'a>,
    /// How much bolder its glyphs are across: a negative number where they are turned round.
    x: i32,
    /// How much bolder they are upwards.
    y: i32,
    /// Whether advances are those of the font.
    in_place: bool,
    /// How far to the right what stands higher is moved.
    pub slant: f32,
    /// What stands for characters that the font lacks.
    pub not_found: GlyphId,
}

impl<'a> SyntheticFont<'a> {
    /// A font of which glyphs are drawn so, at its size.
    ///
    /// # Proved
    ///
    /// ```text
    /// ensures font { result.own.face.now ≡ face.now }
    /// ensures across { result.x ≡ Rattle.shape_fonts.specs.Synthetic.strength face.now.scale.x synthetic.bold.0 }
    /// ensures upwards { result.y ≡ Rattle.shape_fonts.specs.Synthetic.strength face.now.scale.y synthetic.bold.1 }
    /// ensures in_place { result.in_place ≡ synthetic.in_place }
    /// ensures slant { result.slant ≡ Rattle.shape_fonts.specs.Synthetic.slant_at face.now.scale.x face.now.scale.y synthetic.slant }
    /// ensures not_found { result.not_found ≡ not_found }
    /// ```
    #[inline]
    pub fn new(face: &'a Face<'a>, synthetic: Synthetic, not_found: GlyphId) -> Self {
        let (x, y) = (face.scale.x, face.scale.y);
        SyntheticFont {
            own: OwnFunctions { face },
            x: strength(x, synthetic.bold.0),
            y: strength(y, synthetic.bold.1),
            in_place: synthetic.in_place,
            slant: slant_at(x, y, synthetic.slant),
            not_found,
        }
    }

    /// Whether it answers as the font alone does.
    ///
    /// # Proved
    ///
    /// ```text
    /// ensures { result ≡ is_plain self.now }
    /// ```
    #[inline]
    pub fn is_plain(&self) -> bool {
        self.x == 0 && self.y == 0 && self.slant == 0.0 && self.not_found.0 == 0
    }

    /// The glyph of which the measures are asked.
    fn shown(&self, glyph: GlyphId) -> GlyphId {
        if glyph.0 == 0 { self.not_found } else { glyph }
    }

    /// How far a glyph moves the pen to the right.
    fn advance_across(&self, glyph: GlyphId) -> i32 {
        let shown = self.shown(glyph);
        let plain = self.own.glyph_h_advance(shown);
        bolder_advance(self.in_place, self.x, plain)
    }

    /// How much higher lines are than those of the font, where the font says how high these are.
    fn line_growth(&self) -> i32 {
        match self.own.face.extents {
            Some(_) => self.y,
            None => 0,
        }
    }

    /// How far up a glyph's origin in vertical lines stands.
    fn origin_y(&self, glyph: GlyphId) -> Result<i32, AllocError> {
        let face = self.own.face;
        let (_, plain) = self.own.glyph_v_origin(glyph)?;
        if face.vorg.y_origin(glyph).is_some() {
            return Ok(plain);
        }
        let bearing = face.horizontal.side_bearing(glyph);
        if face.outlines.glyf.glyph_extents(glyph, bearing).is_none() {
            return Ok(plain.wrapping_add(self.line_growth()));
        }
        let bounds = self.own.glyph_extents(glyph)?.unwrap_or(NO_BOUNDS);
        let growth = if is_empty(bounds) { 0 } else { self.y };
        if face.vertical.side_bearing(glyph).is_some() || !face.coordinates().is_empty() {
            return Ok(plain.wrapping_add(growth));
        }
        // The glyph stands in the middle of the line.
        let line = self.own.glyph_v_advance(glyph).wrapping_neg();
        let room = line.wrapping_add(bounds.height);
        let grown = room.wrapping_add(self.line_growth()).wrapping_sub(growth);
        let lifted = (grown >> 1).wrapping_sub(room >> 1).wrapping_add(growth);
        Ok(plain.wrapping_add(lifted))
    }

    /// The bounds of a glyph as it is drawn, of which these are the font's.
    fn drawn(&self, plain: GlyphExtents) -> GlyphExtents {
        let face = self.own.face;
        let has_charstrings = face.outlines.cff.is_some() || face.variations.outlines_2.is_some();
        if is_empty(plain) && !has_charstrings {
            return plain;
        }
        self.bolder(slanted(plain, self.slant))
    }

    /// The bounds of a glyph that is drawn bolder.
    fn bolder(&self, plain: GlyphExtents) -> GlyphExtents {
        let moved = if self.in_place { self.x / 2 } else { 0 };
        GlyphExtents {
            x_bearing: plain.x_bearing.wrapping_sub(moved),
            y_bearing: plain.y_bearing.wrapping_add(self.y),
            width: plain.width.wrapping_add(self.x),
            height: plain.height.wrapping_sub(self.y),
        }
    }
}

/// The bounds of nothing.
const NO_BOUNDS: GlyphExtents = GlyphExtents {
    x_bearing: 0,
    y_bearing: 0,
    width: 0,
    height: 0,
};

/// Whether bounds are those of nothing.
fn is_empty(bounds: GlyphExtents) -> bool {
    bounds.x_bearing == 0 && bounds.y_bearing == 0 && bounds.width == 0 && bounds.height == 0
}

/// How much bolder glyphs are where an em is so long. What is turned round grows the other way.
fn strength(size: i32, bold: f32) -> i32 {
    let strength = rounded(float(size) * bold);
    if (strength < 0) == (size < 0) {
        strength
    } else {
        strength.saturating_neg()
    }
}

/// How far to the right what stands higher is moved, where an em is so long across and upwards.
fn slant_at(x: i32, y: i32, slant: f32) -> f32 {
    if y == 0 {
        return 0.0;
    }
    slant * float(x) / float(y)
}

/// The bounds of a glyph that is slanted.
fn slanted(plain: GlyphExtents, slant: f32) -> GlyphExtents {
    if slant == 0.0 {
        return plain;
    }
    let top = float(plain.y_bearing) * slant;
    let bottom = float(plain.y_bearing.wrapping_add(plain.height)) * slant;
    if top < bottom {
        sheared(plain, top, bottom)
    } else {
        sheared(plain, bottom, top)
    }
}

/// Bounds of which the left side moves as what moves least, and the right side as what moves most.
fn sheared(plain: GlyphExtents, least: f32, most: f32) -> GlyphExtents {
    let right = float(plain.x_bearing.wrapping_add(plain.width)) + most;
    let x_bearing = saturating_f32_to_i32((float(plain.x_bearing) + least).floor());
    GlyphExtents {
        x_bearing,
        width: saturating_f32_to_i32(right.ceil()).wrapping_sub(x_bearing),
        ..plain
    }
}

/// An advance of glyphs that are bolder: nothing stays nothing.
fn bolder_advance(in_place: bool, strength: i32, advance: i32) -> i32 {
    if in_place || advance == 0 {
        advance
    } else {
        advance.saturating_add(strength)
    }
}

///
/// # Proved
///
/// ```text
/// ghost has = { λ font. has_glyph font.own.face.now }
/// ghost may_have = { λ font. IsOwnGlyph font.own.face.now }
/// ghost may_advance = { λ font. IsBolderAdvance font }
/// ```
impl FontFunctions for SyntheticFont<'_> {
    fn nominal_glyph(&self, character: u32) -> Option<GlyphId> {
        self.own.nominal_glyph(character)
    }

    fn variation_glyph(&self, character: u32, selector: u32) -> Option<GlyphId> {
        self.own.variation_glyph(character, selector)
    }

    fn glyph_h_advance(&self, glyph: GlyphId) -> i32 {
        self.advance_across(glyph)
    }

    fn glyph_v_advance(&self, glyph: GlyphId) -> i32 {
        let plain = self.own.glyph_v_advance(self.shown(glyph));
        if self.own.face.vertical.has_advance(GlyphId(0)) {
            return bolder_advance(self.in_place, self.y, plain);
        }
        let higher = plain.saturating_sub(self.line_growth());
        bolder_advance(self.in_place, self.y, higher)
    }

    fn glyph_v_origin(&self, glyph: GlyphId) -> Result<(i32, i32), AllocError> {
        let y = self.origin_y(self.shown(glyph))?;
        Ok((self.glyph_h_advance(glyph) / 2, y))
    }

    fn glyph_extents(&self, glyph: GlyphId) -> Result<Option<GlyphExtents>, AllocError> {
        match self.own.glyph_extents(self.shown(glyph))? {
            Some(plain) => Ok(Some(self.drawn(plain))),
            None => Ok(None),
        }
    }

    fn glyph_contour_point(&self, glyph: GlyphId, point: u16) -> Option<(i32, i32)> {
        self.own.glyph_contour_point(self.shown(glyph), point)
    }
}

/// Names and extents of glyphs, where the extents are found before they are asked for.
pub trait LineNames: GlyphNames {
    /// Finds the extents of glyphs as a font draws them.
    ///
    /// # Errors
    ///
    /// `Err(AllocError)` where memory ran out.
    ///
    /// # Proved
    ///
    /// That it returns.
    fn find(
        &mut self,
        font: &SyntheticFont<'_>,
        infos: &[hb_glyph_info_t],
    ) -> Result<(), AllocError>;
}

impl LineNames for NoGlyphNames {
    fn find(
        &mut self,
        _font: &SyntheticFont<'_>,
        _infos: &[hb_glyph_info_t],
    ) -> Result<(), AllocError> {
        Ok(())
    }
}

impl LineNames for FaceNames<'_> {
    /// Finds them as the font has them, which draws them so.
    fn find(
        &mut self,
        _font: &SyntheticFont<'_>,
        infos: &[hb_glyph_info_t],
    ) -> Result<(), AllocError> {
        self.find_extents(infos)
    }
}

/// The names of a font's glyphs, and the extents of glyphs that are drawn bolder and slanted.
#[derive(Debug)]
pub struct SyntheticNames<'a> {
    names: FaceNames<'a>,
    extents: BTreeMap<u16, Option<GlyphExtents>>,
}

impl<'a> SyntheticNames<'a> {
    /// The names, and no extents yet.
    ///
    /// # Proved
    ///
    /// That it returns.
    #[inline]
    pub fn new(names: FaceNames<'a>) -> Self {
        SyntheticNames {
            names,
            extents: BTreeMap::new(),
        }
    }

    /// The names alone.
    ///
    /// # Proved
    ///
    /// That it returns.
    #[inline]
    pub fn into_names(self) -> FaceNames<'a> {
        let SyntheticNames { names, extents: _ } = self;
        names
    }
}

///
/// # Proved
///
/// ```text
/// ghost name_of = { λ names glyph. name_of names.names.post.table.now names.names.outlines glyph }
/// ghost extents_of = { λ names glyph. option_and_then (λ found. found) (get nat_cmp names.extents glyph) }
/// ```
impl GlyphNames for SyntheticNames<'_> {
    fn glyph_name(&self, glyph: GlyphId) -> Option<&str> {
        self.names.glyph_name(glyph)
    }

    fn glyph_extents(&self, glyph: GlyphId) -> Option<GlyphExtents> {
        *self.extents.get(&glyph.0)?
    }
}

impl LineNames for SyntheticNames<'_> {
    fn find(
        &mut self,
        font: &SyntheticFont<'_>,
        infos: &[hb_glyph_info_t],
    ) -> Result<(), AllocError> {
        for info in infos {
            if let Ok(number) = u16::try_from(info.glyph_id) {
                if !self.extents.contains_key(&number) {
                    let extents = font.glyph_extents(GlyphId(number))?;
                    let _ = self.extents.insert(number, extents)?;
                }
            }
        }
        Ok(())
    }
}
