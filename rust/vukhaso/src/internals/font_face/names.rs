// Written by tools/plain_rust from crates/font_face. Do not edit.

//! The names and the extents of a font's glyphs.

use crate::common::{GlyphId, Tag};
use crate::font_face::bounds::BoundsSource;
use crate::font_face::face::Face;
use crate::font_outlines::Outlines;
use crate::font_tables::glyph_names::PostNames;
use crate::glyph::{GlyphExtents, GlyphNames, hb_glyph_info_t};
use crate::memory::BTreeMap;
use crate::memory::{AllocError, Vec};

/// The names and the extents of a font's glyphs, as the text of shaped glyphs asks for them.
#[derive(Debug)]
pub struct FaceNames<'a> {
    outlines: Outlines<'a>,
    bounds: BoundsSource<'a>,
    coordinates: Vec<i32>,
    post: PostNames<'a>,
    extents: BTreeMap<u16, Option<GlyphExtents>>,
}

impl<'a> FaceNames<'a> {
    /// The names of the font's glyphs, and their extents at its size and at the variations that are chosen.
    ///
    /// # Errors
    ///
    /// `Err(AllocError)` where memory runs out.
    ///
    /// # Proved
    ///
    /// That it returns.
    #[inline]
    pub fn new(face: &Face<'a>) -> Result<Self, AllocError> {
        let post = PostNames::new(face.tables.table(Tag::from_bytes(b"post")))?;
        Ok(FaceNames {
            outlines: face.outlines,

            bounds: BoundsSource::new(face),
            coordinates: copied(face.coordinates())?,
            post,
            extents: BTreeMap::new(),
        })
    }

    /// Finds the extents of glyphs, each of them once, and once where there are none too: an outline that
    /// is broken may take as long to read as the longest.
    ///
    /// # Errors
    ///
    /// `Err(AllocError)` where memory runs out.
    ///
    /// # Proved
    ///
    /// That it returns.
    #[inline]
    pub fn find_extents(&mut self, infos: &[hb_glyph_info_t]) -> Result<(), AllocError> {
        for info in infos {
            if let Ok(number) = u16::try_from(info.glyph_id) {
                if !self.extents.contains_key(&number) {
                    let extents = self.bounds(GlyphId(number))?;
                    let _ = self.extents.insert(number, extents)?;
                }
            }
        }
        Ok(())
    }

    /// The bounds of a glyph, as its outline has them.
    fn bounds(&self, glyph: GlyphId) -> Result<Option<GlyphExtents>, AllocError> {
        self.bounds.bounds(glyph, self.coordinates.as_slice())
    }

    /// The bytes of a glyph's name.
    fn name_bytes(&self, glyph: GlyphId) -> Option<&'a [u8]> {
        match self.post.name(glyph) {
            Some(name) => Some(name),
            None => self.outlines.glyph_name(glyph),
        }
    }
}

/// The same coordinates once more.
fn copied(coordinates: &[i32]) -> Result<Vec<i32>, AllocError> {
    let mut copied = Vec::new();
    for coordinate in coordinates {
        copied.push(*coordinate)?;
    }
    Ok(copied)
}

/// The bytes, if they are text.
fn text_of(bytes: &[u8]) -> Option<&str> {
    match core::str::from_utf8(bytes) {
        Ok(text) => Some(text),
        Err(_) => None,
    }
}

///
/// # Proved
///
/// ```text
/// ghost name_of = { λ names glyph. name_of names.post.table.now names.outlines glyph }
/// ghost extents_of = { λ names glyph. option_and_then (λ found. found) (get nat_cmp names.extents glyph) }
/// ```
impl<'a> GlyphNames for FaceNames<'a> {
    fn glyph_name(&self, glyph: GlyphId) -> Option<&str> {
        text_of(self.name_bytes(glyph)?)
    }

    /// The extents of a glyph, among those that were found.
    fn glyph_extents(&self, glyph: GlyphId) -> Option<GlyphExtents> {
        *self.extents.get(&glyph.0)?
    }
}
