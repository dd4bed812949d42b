//! What a font answers: by its own functions, or else by those of its parent, at the font's size.

use crate::font::functions::{hb_font_extents_t, hb_glyph_extents_t};
use crate::font::hb_font_t;
use crate::types::{hb_codepoint_t, hb_direction_t, hb_position_t, is_horizontal};
use std::ffi::{c_char, c_int, c_uint};
use std::ptr::from_ref;

/// Calls a function of the font's with its data.
macro_rules! call {
    ($font:ident, $slot:ident $(, $argument:expr)*) => {
        // SAFETY: the caller of the interface gave the function, for fonts of this kind, with the data that it is passed.
        unsafe { ($slot.function)(from_ref($font).cast_mut(), $font.data.get() $(, $argument)*, $slot.user_data) }
    };
}

impl hb_font_t {
    /// A length across of the parent's, at the size of this font.
    fn scaled_across(&self, value: i32) -> i32 {
        scaled(value, self.parent().map(|parent| parent.scale().0), self.scale().0)
    }

    /// A length upwards of the parent's, at the size of this font.
    fn scaled_upwards(&self, value: i32) -> i32 {
        scaled(value, self.parent().map(|parent| parent.scale().1), self.scale().1)
    }

    pub fn h_extents(&self) -> Option<hb_font_extents_t> {
        if let Some(slot) = self.class().slots.h_extents.get() {
            let mut extents = hb_font_extents_t::default();
            return (call!(self, slot, &raw mut extents) != 0).then_some(extents);
        }
        let mut extents = self.parent()?.h_extents()?;
        for length in [&mut extents.ascender, &mut extents.descender, &mut extents.line_gap] {
            *length = self.scaled_upwards(*length);
        }
        Some(extents)
    }

    pub fn v_extents(&self) -> Option<hb_font_extents_t> {
        if let Some(slot) = self.class().slots.v_extents.get() {
            let mut extents = hb_font_extents_t::default();
            return (call!(self, slot, &raw mut extents) != 0).then_some(extents);
        }
        let mut extents = self.parent()?.v_extents()?;
        for length in [&mut extents.ascender, &mut extents.descender, &mut extents.line_gap] {
            *length = self.scaled_across(*length);
        }
        Some(extents)
    }

    pub fn h_extents_with_fallback(&self) -> hb_font_extents_t {
        self.h_extents().unwrap_or_else(|| {
            let ascender = (f64::from(self.scale().1) * 0.8) as i32;
            hb_font_extents_t { ascender, descender: ascender - self.scale().1, ..Default::default() }
        })
    }

    pub fn extents_for(&self, direction: hb_direction_t) -> hb_font_extents_t {
        if is_horizontal(direction) {
            return self.h_extents_with_fallback();
        }
        self.v_extents().unwrap_or_else(|| {
            let ascender = self.scale().0 / 2;
            hb_font_extents_t { ascender, descender: ascender - self.scale().0, ..Default::default() }
        })
    }

    /// The glyph of a character, and what the function left where it has none.
    pub fn nominal_glyph_or(&self, character: hb_codepoint_t) -> Result<hb_codepoint_t, hb_codepoint_t> {
        let slots = &self.class().slots;
        let mut glyph = 0;
        let is_found = if let Some(slot) = slots.nominal_glyph.get() {
            call!(self, slot, character, &raw mut glyph) != 0
        } else if let Some(slot) = slots.nominal_glyphs.get() {
            call!(self, slot, 1, &raw const character, 0, &raw mut glyph, 0) != 0
        } else {
            return self.parent().map_or(Err(0), |parent| parent.nominal_glyph_or(character));
        };
        if is_found { Ok(glyph) } else { Err(glyph) }
    }

    pub fn nominal_glyph(&self, character: hb_codepoint_t) -> Option<hb_codepoint_t> {
        self.nominal_glyph_or(character).ok()
    }

    pub fn variation_glyph(&self, character: hb_codepoint_t, selector: hb_codepoint_t) -> Option<hb_codepoint_t> {
        if let Some(slot) = self.class().slots.variation_glyph.get() {
            let mut glyph = 0;
            return (call!(self, slot, character, selector, &raw mut glyph) != 0).then_some(glyph);
        }
        self.parent()?.variation_glyph(character, selector)
    }

    pub fn h_advance(&self, glyph: hb_codepoint_t) -> hb_position_t {
        let slots = &self.class().slots;
        if let Some(slot) = slots.h_advance.get() {
            return call!(self, slot, glyph);
        }
        if let Some(slot) = slots.h_advances.get() {
            let mut advance = 0;
            call!(self, slot, 1, &raw const glyph, 0, &raw mut advance, 0);
            return advance;
        }
        self.parent().map_or(self.scale().0, |parent| self.scaled_across(parent.h_advance(glyph)))
    }

    pub fn v_advance(&self, glyph: hb_codepoint_t) -> hb_position_t {
        let slots = &self.class().slots;
        if let Some(slot) = slots.v_advance.get() {
            return call!(self, slot, glyph);
        }
        if let Some(slot) = slots.v_advances.get() {
            let mut advance = 0;
            call!(self, slot, 1, &raw const glyph, 0, &raw mut advance, 0);
            return advance;
        }
        self.parent().map_or(-self.scale().1, |parent| self.scaled_upwards(parent.v_advance(glyph)))
    }

    /// The advances of some glyphs, in one call where the font has a function for that.
    pub fn advances(&self, is_horizontal: bool, glyphs: &[hb_codepoint_t]) -> Vec<hb_position_t> {
        let slots = &self.class().slots;
        let (one, many) = if is_horizontal {
            (slots.h_advance.get().is_some(), slots.h_advances.get())
        } else {
            (slots.v_advance.get().is_some(), slots.v_advances.get())
        };
        if let Some(slot) = many {
            let mut advances = vec![0; glyphs.len()];
            call!(self, slot, glyphs.len() as c_uint, glyphs.as_ptr(), 4, advances.as_mut_ptr(), 4);
            return advances;
        }
        match self.parent() {
            Some(parent) if !one => {
                let across = |value| if is_horizontal { self.scaled_across(value) } else { self.scaled_upwards(value) };
                parent.advances(is_horizontal, glyphs).into_iter().map(across).collect()
            }
            _ if is_horizontal => glyphs.iter().map(|&glyph| self.h_advance(glyph)).collect(),
            _ => glyphs.iter().map(|&glyph| self.v_advance(glyph)).collect(),
        }
    }

    pub fn h_origin(&self, glyph: hb_codepoint_t) -> Option<(hb_position_t, hb_position_t)> {
        if let Some(slot) = self.class().slots.h_origin.get() {
            let (mut x, mut y) = (0, 0);
            return (call!(self, slot, glyph, &raw mut x, &raw mut y) != 0).then_some((x, y));
        }
        let Some(parent) = self.parent() else {
            return Some((0, 0));
        };
        parent.h_origin(glyph).map(|(x, y)| (self.scaled_across(x), self.scaled_upwards(y)))
    }

    pub fn v_origin(&self, glyph: hb_codepoint_t) -> Option<(hb_position_t, hb_position_t)> {
        if let Some(slot) = self.class().slots.v_origin.get() {
            let (mut x, mut y) = (0, 0);
            return (call!(self, slot, glyph, &raw mut x, &raw mut y) != 0).then_some((x, y));
        }
        self.parent()?.v_origin(glyph).map(|(x, y)| (self.scaled_across(x), self.scaled_upwards(y)))
    }

    /// Where the origin of vertical lines stands from that of horizontal ones, where the font does not say it.
    fn origins_apart(&self, glyph: hb_codepoint_t) -> (hb_position_t, hb_position_t) {
        (self.h_advance(glyph) / 2, self.h_extents_with_fallback().ascender)
    }

    pub fn origin_for(&self, glyph: hb_codepoint_t, direction: hb_direction_t) -> (hb_position_t, hb_position_t) {
        let moved = |(x, y): (i32, i32), sign: i32| {
            let (across, upwards) = self.origins_apart(glyph);
            (x + sign * across, y + sign * upwards)
        };
        if is_horizontal(direction) {
            let own = self.h_origin(glyph);
            own.or_else(|| self.v_origin(glyph).map(|origin| moved(origin, -1))).unwrap_or_default()
        } else {
            let own = self.v_origin(glyph);
            own.or_else(|| self.h_origin(glyph).map(|origin| moved(origin, 1))).unwrap_or_default()
        }
    }

    pub fn h_kerning(&self, left: hb_codepoint_t, right: hb_codepoint_t) -> hb_position_t {
        if let Some(slot) = self.class().slots.h_kerning.get() {
            return call!(self, slot, left, right);
        }
        self.parent().map_or(0, |parent| self.scaled_across(parent.h_kerning(left, right)))
    }

    pub fn v_kerning(&self, top: hb_codepoint_t, bottom: hb_codepoint_t) -> hb_position_t {
        if let Some(slot) = self.class().slots.v_kerning.get() {
            return call!(self, slot, top, bottom);
        }
        self.parent().map_or(0, |parent| self.scaled_upwards(parent.v_kerning(top, bottom)))
    }

    pub fn glyph_extents(&self, glyph: hb_codepoint_t) -> Option<hb_glyph_extents_t> {
        if let Some(slot) = self.class().slots.extents.get() {
            let mut extents = hb_glyph_extents_t::default();
            return (call!(self, slot, glyph, &raw mut extents) != 0).then_some(extents);
        }
        let extents = self.parent()?.glyph_extents(glyph)?;
        Some(hb_glyph_extents_t {
            x_bearing: self.scaled_across(extents.x_bearing),
            y_bearing: self.scaled_upwards(extents.y_bearing),
            width: self.scaled_across(extents.width),
            height: self.scaled_upwards(extents.height),
        })
    }

    pub fn contour_point(&self, glyph: hb_codepoint_t, point: c_uint) -> Option<(hb_position_t, hb_position_t)> {
        if let Some(slot) = self.class().slots.contour_point.get() {
            let (mut x, mut y) = (0, 0);
            return (call!(self, slot, glyph, point, &raw mut x, &raw mut y) != 0).then_some((x, y));
        }
        self.parent()?.contour_point(glyph, point).map(|(x, y)| (self.scaled_across(x), self.scaled_upwards(y)))
    }

    /// Where a point of an outline is from the glyph's origin in lines of a direction.
    pub fn contour_point_for(
        &self,
        glyph: hb_codepoint_t,
        point: c_uint,
        direction: hb_direction_t,
    ) -> Option<(hb_position_t, hb_position_t)> {
        self.contour_point(glyph, point).map(|found| {
            let origin = self.origin_for(glyph, direction);
            (found.0.wrapping_sub(origin.0), found.1.wrapping_sub(origin.1))
        })
    }

    /// The name of a glyph, cut to as many bytes as there is room for.
    pub fn glyph_name(&self, glyph: hb_codepoint_t, size: usize) -> Option<Vec<u8>> {
        if let Some(slot) = self.class().slots.name.get() {
            let mut name = vec![0u8; size.max(1)];
            let has_name = call!(self, slot, glyph, name.as_mut_ptr().cast::<c_char>(), size as c_uint) != 0;
            let end = name.iter().position(|byte| *byte == 0).unwrap_or(name.len());
            name.truncate(end);
            return has_name.then_some(name);
        }
        self.parent()?.glyph_name(glyph, size)
    }

    pub fn glyph_from_name(&self, name: &[u8]) -> Option<hb_codepoint_t> {
        if let Some(slot) = self.class().slots.from_name.get() {
            let mut glyph = 0;
            let text: *const c_char = name.as_ptr().cast();
            return (call!(self, slot, text, name.len() as c_int, &raw mut glyph) != 0).then_some(glyph);
        }
        self.parent()?.glyph_from_name(name)
    }
}

fn scaled(value: i32, from: Option<i32>, to: i32) -> i32 {
    match from {
        Some(0) => 0,
        Some(from) if from != to => (i64::from(value) * i64::from(to) / i64::from(from)) as i32,
        _ => value,
    }
}
