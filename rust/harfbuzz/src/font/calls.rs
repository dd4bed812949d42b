//! The calls that ask a font.

use crate::font::functions::{hb_font_extents_t, hb_glyph_extents_t};
use crate::font::hb_font_t;
use crate::types::{hb_bool_t, hb_codepoint_t, hb_direction_t, hb_position_t, is_horizontal, put};
use std::ffi::c_uint;

/// Writes an answer, or the default where there is none.
///
/// # Safety
///
/// `place` is null or a place for a value.
unsafe fn answered<T: Default>(found: Option<T>, place: *mut T) -> hb_bool_t {
    let is_found = found.is_some();
    // SAFETY: the caller's word.
    unsafe { put(place, found.unwrap_or_default()) };
    is_found.into()
}

/// Writes two numbers, or zeros where there are none.
///
/// # Safety
///
/// `x` and `y` are null or places for a value.
unsafe fn answered_pair(found: Option<(i32, i32)>, x: *mut hb_position_t, y: *mut hb_position_t) -> hb_bool_t {
    let (first, second) = found.unwrap_or_default();
    // SAFETY: the caller's word.
    unsafe {
        put(x, first);
        put(y, second);
    }
    found.is_some().into()
}

/// A call that asks a font, and writes what it answers.
macro_rules! ask {
    ($($call:ident($font:ident, $($name:ident: $type:ty),*) $(-> $answer:ty)? $body:block)*) => {
        $(
            #[unsafe(no_mangle)]
            pub unsafe extern "C" fn $call(font: *mut hb_font_t, $($name: $type),*) $(-> $answer)? {
                // SAFETY: HarfBuzz's terms: a font that is alive, and what the header says of the other arguments.
                unsafe {
                    let $font = &*font;
                    $body
                }
            }
        )*
    };
}

ask! {
    hb_font_get_h_extents(font, extents: *mut hb_font_extents_t) -> hb_bool_t { answered(font.h_extents(), extents) }
    hb_font_get_v_extents(font, extents: *mut hb_font_extents_t) -> hb_bool_t { answered(font.v_extents(), extents) }
    hb_font_get_extents_for_direction(font, direction: hb_direction_t, extents: *mut hb_font_extents_t) {
        put(extents, font.extents_for(direction));
    }
    hb_font_get_nominal_glyph(font, character: hb_codepoint_t, glyph: *mut hb_codepoint_t) -> hb_bool_t {
        let found = font.nominal_glyph_or(character);
        put(glyph, found.unwrap_or_else(|left| left));
        found.is_ok().into()
    }
    hb_font_get_variation_glyph(
        font, character: hb_codepoint_t, selector: hb_codepoint_t, glyph: *mut hb_codepoint_t
    ) -> hb_bool_t {
        answered(font.variation_glyph(character, selector), glyph)
    }
    hb_font_get_glyph(
        font, character: hb_codepoint_t, selector: hb_codepoint_t, glyph: *mut hb_codepoint_t
    ) -> hb_bool_t {
        let found =
            if selector == 0 { font.nominal_glyph(character) } else { font.variation_glyph(character, selector) };
        answered(found, glyph)
    }
    hb_font_get_nominal_glyphs(
        font, count: c_uint, characters: *const hb_codepoint_t, character_stride: c_uint, glyphs: *mut hb_codepoint_t,
        glyph_stride: c_uint
    ) -> c_uint {
        for number in 0..count as usize {
            let character = *characters.byte_add(number * character_stride as usize);
            let Some(glyph) = font.nominal_glyph(character) else {
                return number as c_uint;
            };
            *glyphs.byte_add(number * glyph_stride as usize) = glyph;
        }
        count
    }
    hb_font_get_glyph_h_advance(font, glyph: hb_codepoint_t) -> hb_position_t { font.h_advance(glyph) }
    hb_font_get_glyph_v_advance(font, glyph: hb_codepoint_t) -> hb_position_t { font.v_advance(glyph) }
    hb_font_get_glyph_h_advances(
        font, count: c_uint, glyphs: *const hb_codepoint_t, glyph_stride: c_uint, advances: *mut hb_position_t,
        advance_stride: c_uint
    ) {
        put_advances(font, true, (count, glyphs, glyph_stride), (advances, advance_stride));
    }
    hb_font_get_glyph_v_advances(
        font, count: c_uint, glyphs: *const hb_codepoint_t, glyph_stride: c_uint, advances: *mut hb_position_t,
        advance_stride: c_uint
    ) {
        put_advances(font, false, (count, glyphs, glyph_stride), (advances, advance_stride));
    }
    hb_font_get_glyph_advance_for_direction(
        font, glyph: hb_codepoint_t, direction: hb_direction_t, x: *mut hb_position_t, y: *mut hb_position_t
    ) {
        let advance = if is_horizontal(direction) { (font.h_advance(glyph), 0) } else { (0, font.v_advance(glyph)) };
        put(x, advance.0);
        put(y, advance.1);
    }
    hb_font_get_glyph_advances_for_direction(
        font, direction: hb_direction_t, count: c_uint, glyphs: *const hb_codepoint_t, glyph_stride: c_uint,
        advances: *mut hb_position_t, advance_stride: c_uint
    ) {
        put_advances(font, is_horizontal(direction), (count, glyphs, glyph_stride), (advances, advance_stride));
    }
    hb_font_get_glyph_h_origin(
        font, glyph: hb_codepoint_t, x: *mut hb_position_t, y: *mut hb_position_t
    ) -> hb_bool_t {
        answered_pair(font.h_origin(glyph), x, y)
    }
    hb_font_get_glyph_v_origin(
        font, glyph: hb_codepoint_t, x: *mut hb_position_t, y: *mut hb_position_t
    ) -> hb_bool_t {
        answered_pair(font.v_origin(glyph), x, y)
    }
    hb_font_get_glyph_origin_for_direction(
        font, glyph: hb_codepoint_t, direction: hb_direction_t, x: *mut hb_position_t, y: *mut hb_position_t
    ) {
        answered_pair(Some(font.origin_for(glyph, direction)), x, y);
    }
    hb_font_add_glyph_origin_for_direction(
        font, glyph: hb_codepoint_t, direction: hb_direction_t, x: *mut hb_position_t, y: *mut hb_position_t
    ) {
        let origin = font.origin_for(glyph, direction);
        *x += origin.0;
        *y += origin.1;
    }
    hb_font_subtract_glyph_origin_for_direction(
        font, glyph: hb_codepoint_t, direction: hb_direction_t, x: *mut hb_position_t, y: *mut hb_position_t
    ) {
        let origin = font.origin_for(glyph, direction);
        *x -= origin.0;
        *y -= origin.1;
    }
    hb_font_get_glyph_h_kerning(font, left: hb_codepoint_t, right: hb_codepoint_t) -> hb_position_t {
        font.h_kerning(left, right)
    }
    hb_font_get_glyph_v_kerning(font, top: hb_codepoint_t, bottom: hb_codepoint_t) -> hb_position_t {
        font.v_kerning(top, bottom)
    }
    hb_font_get_glyph_kerning_for_direction(
        font, first: hb_codepoint_t, second: hb_codepoint_t, direction: hb_direction_t, x: *mut hb_position_t,
        y: *mut hb_position_t
    ) {
        let horizontal = is_horizontal(direction);
        put(x, if horizontal { font.h_kerning(first, second) } else { 0 });
        put(y, if horizontal { 0 } else { font.v_kerning(first, second) });
    }
    hb_font_get_glyph_extents(font, glyph: hb_codepoint_t, extents: *mut hb_glyph_extents_t) -> hb_bool_t {
        answered(font.glyph_extents(glyph), extents)
    }
    hb_font_get_glyph_extents_for_origin(
        font, glyph: hb_codepoint_t, direction: hb_direction_t, extents: *mut hb_glyph_extents_t
    ) -> hb_bool_t {
        let moved = font.glyph_extents(glyph).map(|mut found| {
            let origin = font.origin_for(glyph, direction);
            found.x_bearing -= origin.0;
            found.y_bearing -= origin.1;
            found
        });
        answered(moved, extents)
    }
    hb_font_get_glyph_contour_point(
        font, glyph: hb_codepoint_t, point: c_uint, x: *mut hb_position_t, y: *mut hb_position_t
    ) -> hb_bool_t {
        answered_pair(font.contour_point(glyph, point), x, y)
    }
    hb_font_get_glyph_contour_point_for_origin(
        font, glyph: hb_codepoint_t, point: c_uint, direction: hb_direction_t, x: *mut hb_position_t,
        y: *mut hb_position_t
    ) -> hb_bool_t {
        answered_pair(font.contour_point_for(glyph, point, direction), x, y)
    }
}

/// Writes the advances of a list of glyphs.
///
/// # Safety
///
/// The lists have so many items, so many bytes apart.
unsafe fn put_advances(
    font: &hb_font_t,
    is_horizontal: bool,
    (count, glyphs, glyph_stride): (c_uint, *const hb_codepoint_t, c_uint),
    (advances, advance_stride): (*mut hb_position_t, c_uint),
) {
    let listed: Vec<_> = (0..count as usize)
        // SAFETY: the caller's word.
        .map(|number| unsafe { *glyphs.byte_add(number * glyph_stride as usize) })
        .collect();
    for (number, advance) in font.advances(is_horizontal, &listed).into_iter().enumerate() {
        // SAFETY: the caller's word.
        unsafe { *advances.byte_add(number * advance_stride as usize) = advance };
    }
}
