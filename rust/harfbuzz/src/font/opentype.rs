//! The functions of a font that its tables answer, as `hb_font_create` sets them: all measures are the proved reader's.

use crate::font::drawing::draw_glyph;
use crate::font::functions::{Slot, Slots, hb_font_extents_t, hb_font_funcs_t, hb_glyph_extents_t};
use crate::font::hb_font_t;
use crate::object::{Empty, release};
use crate::ot::color::graphs::is_unbounded_blank;
use crate::ot::metrics;
use crate::types::{hb_bool_t, hb_codepoint_t, hb_position_t, put, put_text, slice};
use std::ffi::{c_char, c_int, c_uint, c_void};
use std::ptr::null_mut;
use vukhaso::GlyphId;

/// The functions of all such fonts.
pub fn functions() -> *mut hb_font_funcs_t {
    static FUNCTIONS: Empty<hb_font_funcs_t> = Empty::new();
    FUNCTIONS.get(|| {
        hb_font_funcs_t::fixed(Slots {
            h_extents: Slot::of(h_extents),
            v_extents: Slot::of(v_extents),
            nominal_glyph: Slot::of(nominal_glyph),
            nominal_glyphs: Slot::of(nominal_glyphs),
            variation_glyph: Slot::of(variation_glyph),
            h_advances: Slot::of(h_advances),
            v_advances: Slot::of(v_advances),
            v_origin: Slot::of(v_origin),
            extents: Slot::of(glyph_extents),
            name: Slot::of(glyph_name),
            from_name: Slot::of(glyph_from_name),
            draw_glyph: Slot::of(draw_glyph),
            ..Slots::default()
        })
    })
}

pub fn set_functions(font: &hb_font_t) {
    release(font.data.replace(null_mut()), font.destroy.replace(None));
    // SAFETY: the font gives up the functions that it had.
    unsafe { crate::font::functions::hb_font_funcs_destroy(font.class.replace(functions())) }
}

#[unsafe(no_mangle)]
pub unsafe extern "C" fn hb_ot_font_set_funcs(font: *mut hb_font_t) {
    // SAFETY: HarfBuzz's terms: a font that is alive.
    let font = unsafe { &*font };
    if !font.is_immutable() {
        font.changed();
        set_functions(font);
    }
}

/// The font that a function is asked of.
fn asked<'a>(font: *mut hb_font_t) -> &'a hb_font_t {
    // SAFETY: `asking` and callers of HarfBuzz's interface pass a font that is alive.
    unsafe { &*font }
}

/// The glyph of a number; `None` for those that no font has.
pub fn glyph_of(glyph: hb_codepoint_t) -> Option<GlyphId> {
    u16::try_from(glyph).ok().map(GlyphId)
}

unsafe extern "C" fn h_extents(
    font: *mut hb_font_t,
    _: *mut c_void,
    extents: *mut hb_font_extents_t,
    _: *mut c_void,
) -> hb_bool_t {
    let font = asked(font);
    let found = metrics::line_extents(font, true).map(|mut found| {
        let (_, strength, _) = font.strength();
        found.ascender += if font.scale().1 < 0 { -strength } else { strength };
        found
    });
    // SAFETY: the caller's place.
    unsafe { put(extents, found.unwrap_or_default()) };
    found.is_some().into()
}

unsafe extern "C" fn v_extents(
    font: *mut hb_font_t,
    _: *mut c_void,
    extents: *mut hb_font_extents_t,
    _: *mut c_void,
) -> hb_bool_t {
    let found = metrics::line_extents(asked(font), false);
    // SAFETY: the caller's place.
    unsafe { put(extents, found.unwrap_or_default()) };
    found.is_some().into()
}

unsafe extern "C" fn nominal_glyph(
    font: *mut hb_font_t,
    _: *mut c_void,
    character: hb_codepoint_t,
    glyph: *mut hb_codepoint_t,
    _: *mut c_void,
) -> hb_bool_t {
    let found = asked(font).with_shaper(|face| face.glyph_index(character));
    // SAFETY: the caller's place.
    unsafe { put(glyph, found.map_or(0, |found| found.0.into())) };
    found.is_some().into()
}

/// An item of a list whose items stand so many bytes apart.
unsafe fn strided<T>(first: *mut T, stride: c_uint, number: usize) -> *mut T {
    // SAFETY: the caller's list has this item.
    unsafe { first.byte_add(stride as usize * number) }
}

unsafe extern "C" fn nominal_glyphs(
    font: *mut hb_font_t,
    _: *mut c_void,
    count: c_uint,
    characters: *const hb_codepoint_t,
    character_stride: c_uint,
    glyphs: *mut hb_codepoint_t,
    glyph_stride: c_uint,
    _: *mut c_void,
) -> c_uint {
    asked(font).with_shaper(|face| {
        for number in 0..count as usize {
            // SAFETY: the caller's list has `count` items.
            let character = unsafe { *strided(characters.cast_mut(), character_stride, number) };
            let Some(glyph) = face.glyph_index(character) else {
                return number as c_uint;
            };
            // SAFETY: as above.
            unsafe { *strided(glyphs, glyph_stride, number) = glyph.0.into() };
        }
        count
    })
}

unsafe extern "C" fn variation_glyph(
    font: *mut hb_font_t,
    _: *mut c_void,
    character: hb_codepoint_t,
    selector: hb_codepoint_t,
    glyph: *mut hb_codepoint_t,
    _: *mut c_void,
) -> hb_bool_t {
    let found = asked(font).with_shaper(|face| face.glyph_variation_index(character, selector));
    if let Some(found) = found {
        // SAFETY: the caller's place.
        unsafe { put(glyph, found.0.into()) };
    }
    found.is_some().into()
}

/// Writes the advance of each glyph of a list, bolder by a strength.
unsafe fn put_advances(
    font: &hb_font_t,
    lists: (c_uint, *const hb_codepoint_t, c_uint, *mut hb_position_t, c_uint),
    strength: i32,
    advance: impl Fn(&vukhaso::Face<'static>, GlyphId) -> i32,
) {
    let (count, glyphs, glyph_stride, advances, advance_stride) = lists;
    font.with_shaper(|face| {
        for number in 0..count as usize {
            // SAFETY: the caller's lists have `count` items.
            let glyph = unsafe { *strided(glyphs.cast_mut(), glyph_stride, number) };
            let plain = glyph_of(glyph).map_or(0, |glyph| advance(face, glyph));
            let bolder = if plain == 0 { 0 } else { plain + strength };
            // SAFETY: as above.
            unsafe { *strided(advances, advance_stride, number) = bolder };
        }
    });
}

/// A function of advances along an axis.
macro_rules! advances {
    ($name:ident, $axis:tt, $measure:ident) => {
        unsafe extern "C" fn $name(
            font: *mut hb_font_t,
            _: *mut c_void,
            count: c_uint,
            glyphs: *const hb_codepoint_t,
            glyph_stride: c_uint,
            advances: *mut hb_position_t,
            advance_stride: c_uint,
            _: *mut c_void,
        ) {
            let font = asked(font);
            let (strength, _, in_place) = font.strength();
            let strength = if in_place { 0 } else { strength * font.scale().$axis.signum() };
            let lists = (count, glyphs, glyph_stride, advances, advance_stride);
            // SAFETY: the caller's lists.
            unsafe { put_advances(font, lists, strength, |face, glyph| face.$measure(glyph)) }
        }
    };
}
advances!(h_advances, 0, glyph_hor_advance);
advances!(v_advances, 1, glyph_ver_advance);

unsafe extern "C" fn v_origin(
    font: *mut hb_font_t,
    _: *mut c_void,
    glyph: hb_codepoint_t,
    x: *mut hb_position_t,
    y: *mut hb_position_t,
    _: *mut c_void,
) -> hb_bool_t {
    let font = asked(font);
    let origin = glyph_of(glyph).and_then(|glyph| font.with_shaper(|face| face.vertical_origin(glyph)).ok());
    // SAFETY: the caller's places.
    unsafe {
        put(x, font.h_advance(glyph) / 2);
        put(y, origin.map_or_else(|| font.h_extents_with_fallback().ascender, |origin| origin.1));
    }
    1
}

unsafe extern "C" fn glyph_extents(
    font: *mut hb_font_t,
    _: *mut c_void,
    glyph: hb_codepoint_t,
    extents: *mut hb_glyph_extents_t,
    _: *mut c_void,
) -> hb_bool_t {
    let font = asked(font);
    let Some(plain) = plain_extents(font, glyph) else {
        return 0;
    };
    // SAFETY: the caller's place.
    unsafe { put(extents, bolder(font, slanted(font, plain))) };
    1
}

/// The box of a glyph, neither slanted nor bolder.
fn plain_extents(font: &hb_font_t, glyph: hb_codepoint_t) -> Option<hb_glyph_extents_t> {
    if is_unbounded_blank(font, glyph) {
        return Some(hb_glyph_extents_t::default());
    }
    let glyph = glyph_of(glyph)?;
    let found = font.with_shaper(|face| face.glyph_extents(glyph)).ok()??;
    Some(hb_glyph_extents_t { x_bearing: found.x_bearing, y_bearing: found.y_bearing, width: found.width, height: found.height })
}

/// The box of a glyph that is slanted.
fn slanted(font: &hb_font_t, plain: hb_glyph_extents_t) -> hb_glyph_extents_t {
    let slant = font.slant_across();
    if slant == 0.0 {
        return plain;
    }
    let across = |y: i32| slant * y as f32;
    let (top, bottom) = (across(plain.y_bearing), across(plain.y_bearing + plain.height));
    let left = (plain.x_bearing as f32 + top.min(bottom)).floor();
    let right = ((plain.x_bearing + plain.width) as f32 + top.max(bottom)).ceil();
    hb_glyph_extents_t { x_bearing: left as i32, width: (right - left) as i32, ..plain }
}

/// The box of a glyph that is made bolder.
pub fn bolder(font: &hb_font_t, plain: hb_glyph_extents_t) -> hb_glyph_extents_t {
    let (x, y, in_place) = font.strength();
    if (x, y) == (0, 0) {
        return plain;
    }
    let (x_sign, y_sign) = (font.scale().0.signum(), font.scale().1.signum());
    let (x, y) = (x * x_sign, y * y_sign);
    hb_glyph_extents_t {
        x_bearing: plain.x_bearing - if in_place { x / 2 } else { 0 },
        y_bearing: plain.y_bearing + y,
        width: plain.width + x,
        height: plain.height - y,
    }
}

unsafe extern "C" fn glyph_name(
    font: *mut hb_font_t,
    _: *mut c_void,
    glyph: hb_codepoint_t,
    name: *mut c_char,
    size: c_uint,
    _: *mut c_void,
) -> hb_bool_t {
    match asked(font).face().names().name(glyph) {
        Some(found) => {
            // SAFETY: the caller's room.
            unsafe { put_text(found, name, size) };
            1
        }
        None => 0,
    }
}

unsafe extern "C" fn glyph_from_name(
    font: *mut hb_font_t,
    _: *mut c_void,
    name: *const c_char,
    length: c_int,
    glyph: *mut hb_codepoint_t,
    _: *mut c_void,
) -> hb_bool_t {
    // SAFETY: the caller's text.
    let name = unsafe { slice(name.cast::<u8>(), length.max(0) as usize) };
    let found = asked(font).face().names().glyph(name);
    // SAFETY: the caller's place.
    unsafe { put(glyph, found.unwrap_or(0)) };
    found.is_some().into()
}
