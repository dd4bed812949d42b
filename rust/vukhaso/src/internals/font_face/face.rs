// Written by tools/plain_rust from crates/font_face. Do not edit.

//! A font, as far as shaping asks it.

use crate::aat_tables::Metamorphosis;
use crate::common::{GlyphId, Tag};
use crate::font_cmap::CharacterMap;
use crate::font_face::color::ColorTables;
use crate::font_face::directory::Directory;
use crate::font_face::layout::Layout;
use crate::font_face::variations::FaceVariations;
use crate::font_outlines::Outlines;
use crate::font_tables::bytes::u16_at;
use crate::font_tables::directory::Tables;
use crate::font_tables::extents::{FontExtents, horizontal_extents, long_metric_count};
use crate::font_tables::gdef::Gdef;
use crate::font_tables::head::{glyph_count, index_to_loc_format, units_per_em};
use crate::font_tables::ignored_gdef::is_ignored;
use crate::font_tables::metrics::Metrics;
use crate::font_tables::scale::Scale;
use crate::font_tables::vertical_origins::VerticalOrigins;
use crate::memory::{AllocError, Shared};
use crate::ot_lookups::LookupList;
use crate::ot_lookups::lookup_list::{POSITIONING_EXTENSION, SUBSTITUTION_EXTENSION};
use crate::outline_tables::GlyfTables;

/// The lookups of a font.
#[derive(Debug)]
pub struct Lookups<'a> {
    /// Those of `GSUB`.
    pub substitutions: LookupList<'a>,
    /// Those of `GPOS`.
    pub positions: LookupList<'a>,
    /// The chains of Apple's table `morx`.
    pub morx: Metamorphosis<'a>,
}

/// A font of a file: what shaping asks of it, found once.
#[derive(Debug)]
pub struct Face<'a> {
    /// The tables of the font.
    #[doc(hidden)]
    pub tables: Tables<'a>,
    /// How many font units make an em.
    #[doc(hidden)]
    pub units_per_em: u16,
    /// How many glyphs the font has.
    #[doc(hidden)]
    pub glyph_count: u16,
    /// The map from characters to glyphs.
    #[doc(hidden)]
    pub characters: CharacterMap<'a>,
    /// Advances and side bearings in horizontal lines.
    #[doc(hidden)]
    pub horizontal: Metrics<'a>,
    /// Advances and side bearings in vertical lines.
    #[doc(hidden)]
    pub vertical: Metrics<'a>,
    /// Where glyphs stand in vertical lines.
    #[doc(hidden)]
    pub vorg: VerticalOrigins<'a>,
    /// How far horizontal lines reach up and down, in font units, where the font says it.
    #[doc(hidden)]
    pub extents: Option<FontExtents>,
    /// The classes of the glyphs.
    #[doc(hidden)]
    pub gdef: Gdef<'a>,
    /// The outlines of the glyphs.
    #[doc(hidden)]
    pub outlines: Outlines<'a>,
    /// Its bitmaps, and what it says of glyphs that are drawn in colours.
    #[doc(hidden)]
    pub color: ColorTables<'a>,
    /// The tables of the font's lookups.
    #[doc(hidden)]
    pub layout: Layout<'a>,
    /// The lookups.
    #[doc(hidden)]
    pub lookups: Shared<Lookups<'a>>,
    /// Whether the font positions its marks itself: whether it has a table `GPOS` that is read.
    #[doc(hidden)]
    pub has_gpos: bool,
    /// The size at which the font is used.
    #[doc(hidden)]
    pub scale: Scale,
    /// The size in points for which glyphs stand closer or farther apart; 0 where none is set.
    #[doc(hidden)]
    pub points_per_em: f32,
    /// What the font says of its variations, and those that are chosen.
    #[doc(hidden)]
    pub variations: FaceVariations<'a>,
}

/// The outlines of a font.
fn outlines_of<'a>(tables: &Directory<'a>, head: &[u8], glyph_count: u16) -> Outlines<'a> {
    let glyf = GlyfTables {
        glyf: tables.table(Tag::from_bytes(b"glyf")),
        loca: tables.table(Tag::from_bytes(b"loca")),
        has_long_offsets: index_to_loc_format(head) != 0,
        glyph_count,
    };
    Outlines::new(glyf, tables.table(Tag::from_bytes(b"CFF ")))
}

impl<'a> Face<'a> {
    /// The font with this index in a collection or in a Macintosh resource file, or the only one of a file,
    /// whatever the index. `None` where the bytes are no font, or there is no font with this index
    /// (OpenType specification, "OpenType Font File").
    ///
    /// # Errors
    ///
    /// `Err(AllocError)` where memory runs out.
    ///
    /// # Proved
    ///
    /// ```text
    /// ensures found { IfOk result (λ found.
    ///     option_map (λ face. (face.tables.file.now, face.tables.directory)) found ≡ font_of file.now index) }
    /// ensures keeps { IfOk result (λ found. IfSome found KeepsItsTables) }
    /// ```
    #[doc(hidden)]
    pub fn parse_if_there(file: &'a [u8], index: u32) -> Result<Option<Face<'a>>, AllocError> {
        let Some(tables) = Tables::new(file, index) else {
            return Ok(None);
        };
        let tables = Directory::new(tables);
        let layout = Layout::new(&tables);
        let gdef = definitions_of(tables.table(Tag::from_bytes(b"GDEF")), &layout);
        let substitutions = LookupList::new(layout.gsub, SUBSTITUTION_EXTENSION, &gdef)?;
        let positions = LookupList::new(layout.gpos, POSITIONING_EXTENSION, &gdef)?;
        let glyphs = glyph_count(tables.table(Tag::from_bytes(b"maxp")));
        let lookups = Lookups {
            substitutions,
            positions,
            morx: Metamorphosis::new(layout.morx, glyphs)?,
        };
        Ok(Some(face_of(tables, layout, gdef, lookups)))
    }

    /// How many font units make an em (OpenType specification, `head`).
    ///
    /// # Proved
    ///
    /// ```text
    /// ensures { result ≡ self.now.units_per_em }
    /// ```
    #[inline]
    pub fn units_per_em(&self) -> u16 {
        self.units_per_em
    }

    /// How many glyphs the font has (OpenType specification, `maxp`).
    ///
    /// # Proved
    ///
    /// ```text
    /// ensures { result ≡ self.now.glyph_count }
    /// ```
    #[inline]
    pub fn number_of_glyphs(&self) -> u16 {
        self.glyph_count
    }

    /// The glyph of a code point; `None` where the font has none (OpenType specification, `cmap`).
    ///
    /// # Proved
    ///
    /// ```text
    /// ensures { option_map (λ glyph. glyph.0) result
    ///     ≡ glyph_index self.now.characters.subtable.now self.now.characters.encoding character }
    /// ```
    #[inline]
    pub fn glyph_index(&self, character: u32) -> Option<GlyphId> {
        self.characters.glyph_index(character)
    }

    /// Whether the font has a glyph for a character.
    ///
    /// # Proved
    ///
    /// ```text
    /// ensures { result ≡ is_some (glyph_index self.now.characters.subtable.now self.now.characters.encoding character) }
    /// ```
    #[inline]
    pub fn has_glyph(&self, character: char) -> bool {
        self.glyph_index(character as u32).is_some()
    }

    /// The glyph of a code point before a variation selector; `None` where the font does not have the two.
    ///
    /// # Proved
    ///
    /// ```text
    /// ensures { option_map (λ glyph. glyph.0) result
    ///     ≡ glyph_variation_index self.now.characters.subtable.now self.now.characters.encoding self.now.characters.variations.now character selector }
    /// ```
    #[inline]
    pub fn glyph_variation_index(&self, character: u32, selector: u32) -> Option<GlyphId> {
        self.characters.glyph_variation_index(character, selector)
    }

    /// Says how long an em is across and upwards. At first it is as long as it has font units; what is
    /// negative turns glyphs round. All measures of glyphs are at this size. HarfBuzz's name is
    /// `hb_font_set_scale`.
    ///
    /// # Proved
    ///
    /// ```text
    /// ensures across { self.new.scale.x ≡ x }
    /// ensures upwards { self.new.scale.y ≡ y }
    /// ensures pixels { (self.new.scale.x_ppem ≡ self.old.scale.x_ppem) × (self.new.scale.y_ppem ≡ self.old.scale.y_ppem) }
    /// ensures tables { self.new.tables ≡ self.old.tables }
    /// ensures kept { KeepsItsTables self.old → KeepsItsTables self.new }
    /// ```
    #[inline]
    pub fn set_scale(&mut self, x: i32, y: i32) {
        let mut scale = Scale::new(self.units_per_em, x, y);
        scale.x_ppem = self.scale.x_ppem;
        scale.y_ppem = self.scale.y_ppem;
        self.scale = scale;
    }

    /// Says how many pixels an em has across and upwards; 0 where glyphs are not drawn in pixels, as at
    /// first. The device tables of a font move glyphs at some sizes in pixels, and of its bitmaps those are
    /// used that fit the size best. HarfBuzz's name is `hb_font_set_ppem`.
    ///
    /// # Proved
    ///
    /// ```text
    /// ensures across { self.new.scale.x_ppem ≡ x }
    /// ensures upwards { self.new.scale.y_ppem ≡ y }
    /// ensures size { (self.new.scale.x ≡ self.old.scale.x) × (self.new.scale.y ≡ self.old.scale.y) }
    /// ensures tables { self.new.tables ≡ self.old.tables }
    /// ensures kept { KeepsItsTables self.old → KeepsItsTables self.new }
    /// ```
    #[inline]
    pub fn set_pixels_per_em(&mut self, x: u16, y: u16) {
        self.scale.x_ppem = x;
        self.scale.y_ppem = y;
        let tables = Directory::new(self.tables);
        self.color = ColorTables::new(&tables, self.glyph_count, x, y);
    }

    /// Says how many points an em has; 0 where that is not said, as at first. By Apple's table `trak`
    /// glyphs stand closer or farther apart at some sizes in points. HarfBuzz's name is `hb_font_set_ptem`.
    ///
    /// # Proved
    ///
    /// ```text
    /// ensures points { self.new.points_per_em ≡ points }
    /// ensures tables { self.new.tables ≡ self.old.tables }
    /// ensures kept { KeepsItsTables self.old → KeepsItsTables self.new }
    /// ```
    #[inline]
    pub fn set_points_per_em(&mut self, points: f32) {
        self.points_per_em = points;
    }
}

/// The font of these tables, with these classes of glyphs and these lookups.
///
/// # Requires
///
/// - `layout: IsLayoutOf layout tables.tables`
/// - `gdef: gdef.table.now ≡ believed (table_in tables.tables (codes "GDEF")) layout.gsub.now layout.gpos.now`
fn face_of<'a>(
    tables: Directory<'a>,
    layout: Layout<'a>,
    gdef: Gdef<'a>,
    lookups: Lookups<'a>,
) -> Face<'a> {
    let head = tables.table(Tag::from_bytes(b"head"));
    let units_per_em = units_per_em(head);
    let glyph_count = glyph_count(tables.table(Tag::from_bytes(b"maxp")));
    let os2 = tables.table(Tag::from_bytes(b"OS/2"));
    let hhea = tables.table(Tag::from_bytes(b"hhea"));
    let vmtx = tables.table(Tag::from_bytes(b"vmtx"));
    let vhea = tables.table(Tag::from_bytes(b"vhea"));
    Face {
        tables: tables.tables,
        units_per_em,
        glyph_count,
        characters: CharacterMap::parse(tables.table(Tag::from_bytes(b"cmap")), font_page(os2)),
        horizontal: Metrics::new(
            tables.table(Tag::from_bytes(b"hmtx")),
            long_metric_count(hhea),
            glyph_count,
            units_per_em / 2,
        ),
        vertical: Metrics::new(vmtx, long_metric_count(vhea), glyph_count, units_per_em),
        vorg: VerticalOrigins::new(tables.table(Tag::from_bytes(b"VORG"))),
        extents: horizontal_extents(os2, hhea),
        gdef,
        outlines: outlines_of(&tables, head, glyph_count),
        color: ColorTables::new(&tables, glyph_count, 0, 0),
        has_gpos: layout.has_gpos(&tables),
        layout,
        lookups: Shared::new(lookups),

        scale: Scale::of_em(units_per_em),
        points_per_em: 0.0,
        variations: FaceVariations::new(&tables, gdef.table, glyph_count),
    }
}

/// The classes of the glyphs: none where `GDEF` is one of those that HarfBuzz does not believe.
fn definitions_of<'a>(gdef: &'a [u8], layout: &Layout<'a>) -> Gdef<'a> {
    if is_ignored(gdef.len(), layout.gsub.len(), layout.gpos.len()) {
        Gdef::new(&[])
    } else {
        Gdef::new(gdef)
    }
}

/// The font page of a symbol font, which the high byte of the selection flags of the first version of
/// `OS/2` names.
fn font_page(os2: &[u8]) -> u16 {
    if matches!(u16_at(os2, 0), Some(0)) {
        u16_at(os2, 62).unwrap_or(0) & 0xFF00
    } else {
        0
    }
}
