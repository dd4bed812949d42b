// Written by tools/plain_rust from crates/font_outlines. Do not edit.

//! The outlines of a font, of either kind.

use crate::common::GlyphId;
use crate::font_outlines::cff::CffTable;
use crate::glyph::GlyphExtents;
use crate::outline_tables::GlyfTables;

/// The outlines of a font: those of `glyf`, and of `CFF ` for the glyphs that `glyf` does not have.
///
/// Variations and the table `CFF2` are not read.
#[derive(Clone, Copy, Debug)]
pub struct Outlines<'a> {
    /// The tables `glyf` and `loca`.
    pub glyf: GlyfTables<'a>,
    /// The table `CFF `, where the font has one.
    pub cff: Option<CffTable<'a>>,
}

impl<'a> Outlines<'a> {
    /// The outlines in these tables, which are empty where the font has none, of a font with so many
    /// glyphs.
    ///
    /// # Proved
    ///
    /// ```text
    /// ensures { result.glyf ≡ glyf.entry }
    /// ```
    #[inline]
    pub fn new(glyf: GlyfTables<'a>, cff: &'a [u8]) -> Self {
        Outlines {
            glyf,
            cff: CffTable::parse(cff, glyf.glyph_count),
        }
    }

    /// The box of a glyph, in font units, by its left side bearing in `hmtx`, where it has one; `None`
    /// where the font has no outlines for the glyph.
    ///
    /// # Proved
    ///
    /// ```text
    /// ensures { IsSome (glyf_box self.now glyph.0 left_side_bearing) → result ≡ glyf_box self.now glyph.0 left_side_bearing }
    /// ```
    #[inline]
    pub fn glyph_extents(
        &self,
        glyph: GlyphId,
        left_side_bearing: Option<i16>,
    ) -> Option<GlyphExtents> {
        match self.glyf.glyph_extents(glyph, left_side_bearing) {
            Some(extents) => Some(extents),
            None => self.cff?.glyph_extents(glyph),
        }
    }

    /// The name of a glyph in the table `CFF `, which is ASCII by the specification; `None` where it has
    /// none.
    ///
    /// # Proved
    ///
    /// ```text
    /// ensures { option_copied result ≡ option_and_then (λ cff. cff_name cff glyph.0) self.now.cff }
    /// ```
    #[inline]
    pub fn glyph_name(&self, glyph: GlyphId) -> Option<&'a [u8]> {
        self.cff?.glyph_name(glyph)
    }
}
