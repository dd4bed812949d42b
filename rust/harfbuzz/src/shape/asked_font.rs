//! A font with functions of the caller's, as the proved `shape` asks it.
//!
//! Whether a character has a glyph is asked once in a text, since `shape` holds for fonts that do not change their mind about that. A
//! glyph of more than 16 bits is stood for by one of the last numbers of 16 bits while the text is shaped.

use crate::buffer::{hb_buffer_t, hb_glyph_info_t, hb_glyph_position_t};
use crate::font::functions::Slots;
use crate::font::{hb_font_t, opentype};
use crate::shape::Shaped;
use crate::types::{LEFT_TO_RIGHT, TOP_TO_BOTTOM, is_backward, is_horizontal};
use std::cell::RefCell;
use std::collections::HashMap;
use vukhaso::{AllocError, FontFunctions, GlyphExtents, GlyphId};

/// The last number of a glyph of 16 bits.
const LAST_GLYPH: u32 = 0xFFFE;

impl hb_font_t {
    /// The font of whose functions a question is answered.
    fn answering(&self, is_set: impl Fn(&Slots) -> bool) -> Option<&hb_font_t> {
        let mut font = self;
        while !is_set(&font.functions().slots) {
            font = font.parent_font()?;
        }
        Some(font)
    }

    /// Whether a question is answered by the tables of the face, as they are.
    fn is_own(&self, is_set: impl Fn(&Slots) -> bool) -> bool {
        self.answering(is_set).is_some_and(|font| {
            let (x, y, _) = font.strength();
            let is_at_size =
                std::ptr::eq(font, self) || font.scale() == self.scale() && *font.coordinates() == *self.coordinates();
            let is_plain = (x, y) == (0, 0) && font.slant() == 0.0;
            std::ptr::eq(font.functions(), opentype::functions()) && is_plain && is_at_size
        })
    }

    /// Whether shaping a line asks nothing that the caller answers.
    fn is_all_own(&self) -> bool {
        self.is_own(|slots| slots.nominal_glyph.get().is_some() || slots.nominal_glyphs.get().is_some())
            && self.is_own(|slots| slots.variation_glyph.get().is_some())
            && self.is_own(|slots| slots.h_advance.get().is_some() || slots.h_advances.get().is_some())
            && self.is_own(|slots| slots.v_advance.get().is_some() || slots.v_advances.get().is_some())
            && self.is_own(|slots| slots.v_origin.get().is_some())
            && self.is_own(|slots| slots.extents.get().is_some())
            && self.answering(|slots| slots.contour_point.get().is_some()).is_none()
    }
}

/// What a font was asked while a text is shaped.
pub struct AskedFont<'a> {
    font: &'a hb_font_t,
    /// Whether the tables of the face answer all.
    pub is_own: bool,
    glyphs: RefCell<HashMap<u32, Option<GlyphId>>>,
    /// The caller's glyphs of more than 16 bits.
    wide: RefCell<Vec<u32>>,
}

impl<'a> AskedFont<'a> {
    pub fn new(font: &'a hb_font_t) -> Self {
        AskedFont { font, is_own: font.is_all_own(), glyphs: RefCell::default(), wide: RefCell::default() }
    }

    /// The number that stands for a glyph of the caller's.
    fn narrow(&self, glyph: u32) -> GlyphId {
        let mut wide = self.wide.borrow_mut();
        if glyph <= LAST_GLYPH {
            return GlyphId(glyph as u16);
        }
        let place = wide.iter().position(|other| *other == glyph).unwrap_or_else(|| {
            wide.push(glyph);
            wide.len() - 1
        });
        GlyphId(LAST_GLYPH.saturating_sub(place as u32) as u16)
    }

    /// The glyph of the caller's that a number stands for.
    fn widen(&self, glyph: u32) -> u32 {
        let place = LAST_GLYPH.checked_sub(glyph);
        place.and_then(|place| self.wide.borrow().get(place as usize).copied()).unwrap_or(glyph)
    }

    /// Puts the caller's glyphs in the place of those that stand for them, and of those that are not found.
    pub fn correct(&self, buffer: &hb_buffer_t, shaped: &mut Shaped) {
        for info in &mut shaped.infos {
            info.codepoint = self.widen(info.codepoint);
        }
        let left = if self.is_own { Vec::new() } else { put_left(self.font, buffer, &mut shaped.infos) };
        let is_horizontal = is_horizontal(buffer.properties.direction);
        for (place, (info, position)) in shaped.infos.iter_mut().zip(&mut shaped.positions).enumerate() {
            let is_left = left.contains(&place);
            if info.codepoint == 0 {
                info.codepoint = buffer.not_found;
            }
            if !is_left && (info.codepoint == 0 || info.codepoint != buffer.not_found) {
                continue;
            }
            self.place(info.codepoint, position, is_horizontal);
        }
    }
}

impl AskedFont<'_> {
    /// Gives a glyph in the place of glyph 0 its own advance and origin. No table places it.
    fn place(&self, glyph: u32, position: &mut hb_glyph_position_t, is_horizontal: bool) {
        let font = self.font;
        if is_horizontal && position.x_advance == font.h_advance(0) {
            position.x_advance = font.h_advance(glyph);
            (position.x_offset, position.y_offset) = (0, 0);
        } else if !is_horizontal && position.y_advance == font.v_advance(0) {
            let (x, y) = font.origin_for(glyph, TOP_TO_BOTTOM);
            position.y_advance = font.v_advance(glyph);
            (position.x_offset, position.y_offset) = (x.wrapping_neg(), y.wrapping_neg());
        }
    }
}

impl FontFunctions for AskedFont<'_> {
    fn nominal_glyph(&self, character: u32) -> Option<GlyphId> {
        if let Some(known) = self.glyphs.borrow().get(&character) {
            return *known;
        }
        let glyph = self.font.nominal_glyph(character).map(|glyph| self.narrow(glyph));
        *self.glyphs.borrow_mut().entry(character).or_insert(glyph)
    }

    fn variation_glyph(&self, character: u32, selector: u32) -> Option<GlyphId> {
        self.font.variation_glyph(character, selector).map(|glyph| self.narrow(glyph))
    }

    fn glyph_h_advance(&self, glyph: GlyphId) -> i32 {
        self.font.h_advance(self.widen(glyph.0.into()))
    }

    fn glyph_v_advance(&self, glyph: GlyphId) -> i32 {
        self.font.v_advance(self.widen(glyph.0.into()))
    }

    fn glyph_v_origin(&self, glyph: GlyphId) -> Result<(i32, i32), AllocError> {
        Ok(self.font.origin_for(self.widen(glyph.0.into()), TOP_TO_BOTTOM))
    }

    fn glyph_extents(&self, glyph: GlyphId) -> Result<Option<GlyphExtents>, AllocError> {
        let bounds = self.font.glyph_extents(self.widen(glyph.0.into()));
        Ok(bounds.map(|bounds| GlyphExtents {
            x_bearing: bounds.x_bearing,
            y_bearing: bounds.y_bearing,
            width: bounds.width,
            height: bounds.height,
        }))
    }

    fn glyph_contour_point(&self, glyph: GlyphId, point: u16) -> Option<(i32, i32)> {
        self.font.contour_point_for(self.widen(glyph.0.into()), point.into(), LEFT_TO_RIGHT)
    }
}

/// Puts what the caller's function leaves where it has no glyph in the place of glyph 0: Pango's leaves a glyph that it draws itself.
/// Gives the places of such glyphs.
fn put_left(font: &hb_font_t, buffer: &hb_buffer_t, infos: &mut [hb_glyph_info_t]) -> Vec<usize> {
    if infos.iter().all(|info| info.codepoint != 0) {
        return Vec::new();
    }
    let mut left: HashMap<u32, Vec<u32>> = HashMap::new();
    let mut add = |info: &hb_glyph_info_t| {
        if let Err(glyph) = font.nominal_glyph_or(info.codepoint) {
            left.entry(info.cluster).or_default().push(glyph);
        }
    };
    if is_backward(buffer.properties.direction) {
        buffer.infos.iter().for_each(&mut add);
    } else {
        buffer.infos.iter().rev().for_each(&mut add);
    }
    let mut places = Vec::new();
    for (place, info) in infos.iter_mut().enumerate().filter(|(_, info)| info.codepoint == 0) {
        info.codepoint = left.get_mut(&info.cluster).and_then(Vec::pop).unwrap_or(0);
        if info.codepoint != 0 {
            places.push(place);
        }
    }
    places
}
