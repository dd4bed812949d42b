// Written by tools/plain_rust from crates/font_face. Do not edit.

//! The measures of glyphs at the size at which a font is used, as HarfBuzz's functions of a font give them. What a font
//! says in font units is scaled as soon as it is read.

use crate::common::{GlyphId, Tag};
use crate::font_face::bounds::BoundsSource;
use crate::font_face::face::Face;
use crate::font_gvar::{Phantoms, VariedOutline, varied_outline, varied_phantoms};
use crate::font_tables::extents::FontExtents;
use crate::font_tables::scale::Scale;
use crate::font_variations::rounding::{float, rounded};
use crate::glyph::GlyphExtents;
use crate::memory::AllocError;
#[cfg(not(any(test, feature = "std")))]
use crate::numbers::Round;
use crate::numbers::{nearest_i64_to_f32, saturating_f32_to_i32};

impl Face<'_> {
    /// How far a glyph moves the pen to the right in horizontal lines (OpenType specification, `hmtx` and
    /// `HVAR`). Where variations are chosen of a font without `HVAR`, its outlines say it (`gvar`).
    ///
    /// # Proved
    ///
    /// ```text
    /// ensures plain { self.now.variations.coordinates.items ≡ [] → result ≡ hor_advance self.now glyph.0 }
    /// ensures varied { IsSome self.now.variations.horizontal → result ≡ hor_advance self.now glyph.0 }
    /// ```
    #[inline]
    pub fn glyph_hor_advance(&self, glyph: GlyphId) -> i32 {
        self.scale.em_scale_x(short(self.horizontal_units(glyph)))
    }

    /// How far a glyph moves the pen to the right in horizontal lines, in font units: by the table `hmtx`,
    /// and by the variations that are chosen.
    fn horizontal_units(&self, glyph: GlyphId) -> i32 {
        let advance = i32::from(self.horizontal.advance(glyph));
        if self.coordinates().is_empty() || !self.horizontal.has_advance(glyph) {
            return advance;
        }
        match &self.variations.horizontal {
            Some(table) => advance.saturating_add(table.advance_delta(glyph, self.coordinates())),
            None => match self.varied_phantoms(glyph) {
                Some(phantoms) => distance_or(phantoms.right.x - phantoms.left.x, advance),
                None => advance,
            },
        }
    }

    /// How far a glyph moves the pen down in vertical lines, in font units: by the table `vmtx`, and by the
    /// variations that are chosen.
    fn vertical_units(&self, glyph: GlyphId) -> i32 {
        let advance = i32::from(self.vertical.advance(glyph));
        if self.coordinates().is_empty() || !self.vertical.has_advance(glyph) {
            return advance;
        }
        match &self.variations.vertical {
            Some(table) => advance.saturating_add(table.advance_delta(glyph, self.coordinates())),
            None => match self.varied_phantoms(glyph) {
                Some(phantoms) => distance_or(phantoms.top.y - phantoms.bottom.y, advance),
                None => advance,
            },
        }
    }

    /// The phantom points of a glyph at the variations that are chosen; `None` where the font has no
    /// outline of it.
    fn varied_phantoms(&self, glyph: GlyphId) -> Option<Phantoms> {
        let sources = BoundsSource::new(self).glyph_sources();
        varied_phantoms(&sources, glyph, self.coordinates())
    }

    /// How far a glyph moves the pen up in vertical lines, which is a negative number, since these run
    /// down: by the font's vertical metrics, or else by the height of its lines.
    ///
    /// # Proved
    ///
    /// ```text
    /// ensures plain { self.now.variations.coordinates.items ≡ [] → result ≡ ver_advance self.now glyph.0 }
    /// ensures varied { IsSome self.now.variations.vertical → result ≡ ver_advance self.now glyph.0 }
    /// ensures lines { has_vertical_metrics self.now ≡ false → result ≡ ver_advance self.now glyph.0 }
    /// ```
    #[inline]
    pub fn glyph_ver_advance(&self, glyph: GlyphId) -> i32 {
        if self.has_vertical_metrics() {
            self.back_by_units(glyph)
        } else {
            self.back_by_line()
        }
    }

    /// Whether the font has a table `vmtx`.
    fn has_vertical_metrics(&self) -> bool {
        self.vertical.has_advance(GlyphId(0))
    }

    /// How far a glyph moves the pen up by that table.
    fn back_by_units(&self, glyph: GlyphId) -> i32 {
        let units = self.vertical_units(glyph).saturating_neg();
        self.scale.em_scale_y(short(units))
    }

    /// How far each glyph of a font without that table moves the pen up.
    fn back_by_line(&self) -> i32 {
        line_height(self.line_extents()).wrapping_neg()
    }

    /// Where a glyph's origin in vertical lines stands, from its origin in horizontal ones.
    ///
    /// # Errors
    ///
    /// `Err(AllocError)` where memory runs out for the points of an outline that varies.
    ///
    /// # Proved
    ///
    /// ```text
    /// ensures plain { self.now.variations.coordinates.items ≡ []
    ///     → result ≡ Ok (int_div (hor_advance self.now glyph.0) (pos 2), ver_origin self.now glyph.0) }
    /// ```
    #[inline]
    pub fn vertical_origin(&self, glyph: GlyphId) -> Result<(i32, i32), AllocError> {
        let x = half(self.glyph_hor_advance(glyph));
        Ok((x, self.vertical_origin_y(glyph)?))
    }

    /// How far up a glyph's origin in vertical lines stands: by the table `VORG`, else by the top of its
    /// outline and its top side bearing, or so that the outline stands in the middle of the line, else at
    /// the font's ascender.
    fn vertical_origin_y(&self, glyph: GlyphId) -> Result<i32, AllocError> {
        if let Some(y) = self.vorg.y_origin(glyph) {
            return Ok(self.listed_origin(y, glyph));
        }
        if self.coordinates().is_empty() {
            let bearing = self.horizontal.side_bearing(glyph);
            let outline = self.outlines.glyf.glyph_extents(glyph, bearing);
            return Ok(self.origin_by(outline, self.vertical.side_bearing(glyph)));
        }
        let sources = BoundsSource::new(self).glyph_sources();
        match varied_outline(&sources, glyph, self.coordinates())? {
            Some(outline) => {
                let bearing = self.varied_top_bearing(glyph, &outline);
                Ok(self.origin_by(Some(outline.extents), Some(bearing)))
            }
            None => Ok(self.origin_by(None, None)),
        }
    }

    /// How far up a glyph's origin in vertical lines stands that the table `VORG` has, by its y coordinate
    /// there.
    fn listed_origin(&self, y: i16, glyph: GlyphId) -> i32 {
        let units = float(i32::from(y));
        let units = match &self.variations.vertical {
            Some(table) if !self.coordinates().is_empty() => {
                units + table.origin_delta(glyph, self.coordinates())
            }
            _ => units,
        };
        rounded(units * multiplier(self.scale.y, &self.scale))
    }

    /// How far a glyph's bounds begin below its origin in vertical lines, in font units, at the variations
    /// that are chosen.
    fn varied_top_bearing(&self, glyph: GlyphId, outline: &VariedOutline) -> i16 {
        if let Some(table) = &self.variations.vertical {
            if let Some(delta) = table.bearing_delta(glyph, self.coordinates()) {
                if let Some(bearing) = self.vertical.side_bearing(glyph) {
                    return low_bits(i32::from(bearing).saturating_add(delta));
                }
            }
        }
        low_bits(rounded(outline.phantoms.top.y).saturating_sub(outline.extents.y_bearing))
    }

    /// How far up a glyph's origin in vertical lines stands, by its bounds and its top side bearing in font
    /// units.
    fn origin_by(&self, outline: Option<GlyphExtents>, bearing: Option<i16>) -> i32 {
        let Some(outline) = outline else {
            return self.line_extents().ascender;
        };
        let outline = scaled_bounds(outline, &self.scale);
        match bearing {
            Some(bearing) => outline
                .y_bearing
                .wrapping_add(self.scale.em_scale_y(i32::from(bearing))),
            None => {
                let room = line_height(self.line_extents()).wrapping_add(outline.height);
                outline.y_bearing.wrapping_add(room >> 1)
            }
        }
    }

    /// The bounds of a glyph; `None` where the font has no outline of it (OpenType specification, `glyf`,
    /// `gvar` and `CFF `).
    ///
    /// # Errors
    ///
    /// `Err(AllocError)` where memory runs out for the points of an outline that varies.
    ///
    /// # Proved
    ///
    /// ```text
    /// ensures color { IfSome (color_bounds self.now.color glyph.0 self.now.variations.coordinates.items self.now.scale)
    ///     (λ bounds. result ≡ Ok (Some bounds)) }
    /// ```
    #[inline]
    pub fn glyph_extents(&self, glyph: GlyphId) -> Result<Option<GlyphExtents>, AllocError> {
        BoundsSource::new(self).bounds(glyph, self.coordinates())
    }

    /// How far horizontal lines reach up and down.
    fn line_extents(&self) -> FontExtents {
        match self.extents {
            Some(extents) => FontExtents {
                ascender: self.varied_height(extents.ascender, Tag::from_bytes(b"hasc")),
                descender: self.varied_height(extents.descender, Tag::from_bytes(b"hdsc")),
            },
            None => extents_of_em(self.scale.y),
        }
    }

    /// A height of the whole font at its size, by the variations of the number with this tag.
    fn varied_height(&self, units: i32, tag: Tag) -> i32 {
        let delta = self.variations.values.delta(tag, self.coordinates());
        rounded((float(units) + delta) * multiplier(self.scale.y, &self.scale))
    }
}

/// Half of a number, toward 0.
fn half(number: i32) -> i32 {
    number / 2
}

/// How high horizontal lines are.
fn line_height(extents: FontExtents) -> i32 {
    extents.ascender.wrapping_sub(extents.descender)
}

/// How far horizontal lines reach up and down in a font that does not say it: four fifths of an em are
/// above the baseline, and the rest below.
fn extents_of_em(em: i32) -> FontExtents {
    let ascender = (i64::from(em) * 4 / 5) as i32;
    FontExtents {
        ascender,
        descender: ascender - em,
    }
}

/// Bounds in font units at a size: the whole units around them.
pub(crate) fn scaled_bounds(extents: GlyphExtents, scale: &Scale) -> GlyphExtents {
    let across = multiplier(scale.x, scale);
    let up = multiplier(scale.y, scale);
    let x_bearing = scaled_start(extents.x_bearing, across);
    let y_bearing = scaled_start(extents.y_bearing, up);
    GlyphExtents {
        x_bearing,
        y_bearing,
        width: scaled_size(extents.x_bearing, extents.width, across, x_bearing),
        height: scaled_size(extents.y_bearing, extents.height, up, y_bearing),
    }
}

/// Where bounds begin on an axis.
fn scaled_start(bearing: i32, multiplier: f32) -> i32 {
    whole_below(scaled(bearing, multiplier))
}

/// How far bounds reach on an axis from where they begin at the size.
fn scaled_size(bearing: i32, size: i32, multiplier: f32, start: i32) -> i32 {
    let end = bearing.wrapping_add(size);
    whole_above(scaled(end, multiplier)).wrapping_sub(start)
}

/// The greatest whole number that is not above a float, as far as 32 bits reach.
fn whole_below(number: f32) -> i32 {
    saturating_f32_to_i32(number.floor())
}

/// The least whole number that is not below a float, as far as 32 bits reach.
fn whole_above(number: f32) -> i32 {
    saturating_f32_to_i32(number.ceil())
}

/// How long a font unit is where an em is so long.
fn multiplier(size: i32, scale: &Scale) -> f32 {
    nearest_i64_to_f32(i64::from(size)) / nearest_i64_to_f32(i64::from(scale.units_per_em))
}

/// How long so many font units are.
fn scaled(units: i32, multiplier: f32) -> f32 {
    nearest_i64_to_f32(i64::from(short(units))) * multiplier
}

/// A distance to the nearest whole number; another one where that is 0 or below.
fn distance_or(distance: f32, other: i32) -> i32 {
    let rounded = rounded(distance);
    if rounded > 0 { rounded } else { other }
}

/// A number by its lowest 16 bits.
fn low_bits(number: i32) -> i16 {
    short(number) as i16
}

/// A number of font units as HarfBuzz takes it: by its lowest 16 bits, of which the highest is a sign.
fn short(units: i32) -> i32 {
    units.wrapping_add(32768).rem_euclid(65536) - 32768
}
