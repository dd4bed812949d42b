//! The functions of a font that FreeType answers.

use crate::font::functions::{Slot, Slots, hb_font_extents_t, hb_font_funcs_t, hb_glyph_extents_t};
use crate::font::hb_font_t;
use crate::ft::drawing::draw_glyph;
use crate::ft::library::{GlyphSlot, OUTLINE, VERTICAL_LAYOUT, Vector};
use crate::ft::{Held, Locked};
use crate::object::Empty;
use crate::types::{hb_bool_t, hb_codepoint_t, hb_position_t, put, put_text, slice};
use std::ffi::{CString, c_char, c_int, c_long, c_uint, c_ulong, c_void};

type Font = *mut hb_font_t;
type Data = *mut c_void;

pub fn functions() -> *mut hb_font_funcs_t {
    static FUNCTIONS: Empty<hb_font_funcs_t> = Empty::new();
    FUNCTIONS.get(|| {
        hb_font_funcs_t::fixed(Slots {
            h_extents: Slot::of(h_extents),
            nominal_glyph: Slot::of(nominal_glyph),
            variation_glyph: Slot::of(variation_glyph),
            h_advances: Slot::of(h_advances),
            v_advance: Slot::of(v_advance),
            v_origin: Slot::of(v_origin),
            h_kerning: Slot::of(h_kerning),
            extents: Slot::of(extents),
            contour_point: Slot::of(contour_point),
            name: Slot::of(name),
            from_name: Slot::of(from_name),
            draw_glyph: Slot::of(draw_glyph),
            ..Slots::default()
        })
    })
}

/// The font and FreeType's face that a function is asked of.
fn asked<'a>(font: Font, data: Data) -> (&'a hb_font_t, Locked<'a>) {
    // SAFETY: a font with these functions is alive, and has such data.
    unsafe { (&*font, (*data.cast::<Held>()).lock()) }
}

unsafe extern "C" fn nominal_glyph(
    font: Font,
    data: Data,
    character: hb_codepoint_t,
    glyph: *mut hb_codepoint_t,
    _: Data,
) -> hb_bool_t {
    let (font, held) = asked(font, data);
    let mut found = held.char_index(character);
    if found == 0 && held.is_symbol && character <= 0xFF && crate::sfnt::u16_at(font.face().table(b"OS/2"), 0) != 0 {
        // A symbol font has its characters in the private area.
        found = held.char_index(0xF000 + character);
    }
    if found != 0 {
        // SAFETY: the caller's place.
        unsafe { put(glyph, found) };
    }
    (found != 0).into()
}

unsafe extern "C" fn variation_glyph(
    font: Font,
    data: Data,
    character: hb_codepoint_t,
    selector: hb_codepoint_t,
    glyph: *mut hb_codepoint_t,
    _: Data,
) -> hb_bool_t {
    let (_, held) = asked(font, data);
    // SAFETY: the face is alive while the font holds it.
    let found = unsafe { (held.calls.variant_index)(held.face, c_ulong::from(character), c_ulong::from(selector)) };
    if found != 0 {
        // SAFETY: the caller's place.
        unsafe { put(glyph, found) };
    }
    (found != 0).into()
}

unsafe extern "C" fn h_advances(
    font: Font,
    data: Data,
    count: c_uint,
    glyphs: *const hb_codepoint_t,
    glyph_stride: c_uint,
    advances: *mut hb_position_t,
    advance_stride: c_uint,
    _: Data,
) {
    let (font, held) = asked(font, data);
    let (strength, _, in_place) = font.strength();
    let sign = if font.scale().0 < 0 { -1 } else { 1 };
    for number in 0..count as usize {
        // SAFETY: the caller's lists have `count` items.
        let glyph = unsafe { *glyphs.byte_add(number * glyph_stride as usize) };
        let advance = held.advance(glyph, held.load_flags).map_or(0, c_long::abs);
        let plain = ((advance as f32 * held.times.0) as i32 + (1 << 9)) >> 10;
        let bolder = if plain != 0 && !in_place { strength * sign } else { 0 };
        // SAFETY: as above.
        unsafe { *advances.byte_add(number * advance_stride as usize) = plain + bolder };
    }
}

unsafe extern "C" fn v_advance(font: Font, data: Data, glyph: hb_codepoint_t, _: Data) -> hb_position_t {
    let (font, held) = asked(font, data);
    let Some(advance) = held.advance(glyph, held.load_flags | VERTICAL_LAYOUT) else {
        return 0;
    };
    let (_, strength, in_place) = font.strength();
    let sign = if font.scale().1 < 0 { -1 } else { 1 };
    let plain = (held.times.1 * advance as f32) as i32;
    ((-plain + (1 << 9)) >> 10) + if in_place { 0 } else { strength * sign }
}

unsafe extern "C" fn v_origin(
    font: Font,
    data: Data,
    glyph: hb_codepoint_t,
    x: *mut hb_position_t,
    y: *mut hb_position_t,
    _: Data,
) -> hb_bool_t {
    let (_, held) = asked(font, data);
    let Some(slot) = held.loaded(glyph) else {
        return 0;
    };
    let metrics = &slot.metrics;
    let across = metrics.hori_bearing_x - metrics.vert_bearing_x;
    let upwards = metrics.hori_bearing_y + metrics.vert_bearing_y;
    // SAFETY: the caller's places.
    unsafe {
        put(x, (held.times.0 * across as f32) as i32);
        put(y, (held.times.1 * upwards as f32) as i32);
    }
    1
}

unsafe extern "C" fn h_kerning(font: Font, data: Data, left: hb_codepoint_t, right: hb_codepoint_t, _: Data) -> hb_position_t {
    let (font, held) = asked(font, data);
    let mode = if font.ppem().0 != 0 { 0 } else { 1 };
    let mut kerning = Vector { x: 0, y: 0 };
    // SAFETY: the face is alive while the font holds it; a place for the answer.
    let error = unsafe { (held.calls.kerning)(held.face, left, right, mode, &raw mut kerning) };
    if error == 0 { kerning.x as i32 } else { 0 }
}

unsafe extern "C" fn extents(
    font: Font,
    data: Data,
    glyph: hb_codepoint_t,
    extents: *mut hb_glyph_extents_t,
    _: Data,
) -> hb_bool_t {
    let (font, held) = asked(font, data);
    let Some(GlyphSlot { metrics, .. }) = held.loaded(glyph) else {
        return 0;
    };
    let (x, y) = held.times;
    let left = x * metrics.hori_bearing_x as f32;
    let top = y * metrics.hori_bearing_y as f32;
    let right = left + x * metrics.width as f32;
    let bottom = top - y * metrics.height as f32;
    let slant = font.slant_across();
    let left = (left + (top * slant).min(bottom * slant)).floor() as i32;
    let right = (right + (top * slant).max(bottom * slant)).ceil() as i32;
    let top = top.floor() as i32;
    let plain = hb_glyph_extents_t { x_bearing: left, y_bearing: top, width: right - left, height: bottom.ceil() as i32 - top };
    // SAFETY: the caller's place.
    unsafe { put(extents, crate::font::opentype::bolder(font, plain)) };
    1
}

unsafe extern "C" fn contour_point(
    font: Font,
    data: Data,
    glyph: hb_codepoint_t,
    point: c_uint,
    x: *mut hb_position_t,
    y: *mut hb_position_t,
    _: Data,
) -> hb_bool_t {
    let (_, held) = asked(font, data);
    let Some(slot) = held.loaded(glyph).filter(|slot| slot.format == OUTLINE) else {
        return 0;
    };
    // SAFETY: FreeType's outline has so many points.
    let points = unsafe { slice(slot.outline.points, slot.outline.n_points.max(0) as usize) };
    match points.get(point as usize) {
        Some(found) => {
            // SAFETY: the caller's places.
            unsafe {
                put(x, found.x as i32);
                put(y, found.y as i32);
            }
            1
        }
        None => 0,
    }
}

unsafe extern "C" fn name(font: Font, data: Data, glyph: hb_codepoint_t, text: *mut c_char, size: c_uint, _: Data) -> hb_bool_t {
    let (_, held) = asked(font, data);
    match held.name(glyph) {
        Some(found) => {
            // SAFETY: the caller's room.
            unsafe { put_text(found.to_bytes(), text, size) };
            1
        }
        None => 0,
    }
}

unsafe extern "C" fn from_name(
    font: Font,
    data: Data,
    text: *const c_char,
    length: c_int,
    glyph: *mut hb_codepoint_t,
    _: Data,
) -> hb_bool_t {
    let (_, held) = asked(font, data);
    // SAFETY: the caller's text.
    let text = unsafe { crate::types::bytes(text, length) };
    let Ok(wanted) = CString::new(&text[..text.len().min(127)]) else {
        return 0;
    };
    // SAFETY: the face is alive while the font holds it, and the text has a zero behind it.
    let found = unsafe { (held.calls.name_index)(held.face, wanted.as_ptr()) };
    // SAFETY: the caller's place.
    unsafe { put(glyph, found) };
    (found != 0 || held.name(0) == Some(wanted)).into()
}

unsafe extern "C" fn h_extents(font: Font, data: Data, extents: *mut hb_font_extents_t, _: Data) -> hb_bool_t {
    let (font, held) = asked(font, data);
    // SAFETY: the face is alive while the font holds it, and has a size.
    let (face, size) = unsafe { (&*held.face, &*(*held.face).size) };
    let (ascender, descender, line_gap) = if face.units_per_em != 0 {
        // SAFETY: a product of two numbers.
        let scaled = |units: i16| unsafe { (held.calls.mul_fix)(units.into(), size.y_scale) } as i32;
        let (ascender, descender) = (scaled(face.ascender), scaled(face.descender));
        (ascender, descender, scaled(face.height) - (ascender - descender))
    } else {
        let (ascender, descender) = (size.ascender as i32, size.descender as i32);
        (ascender, descender, size.height as i32 - (ascender - descender))
    };
    let times = |length: i32| (held.times.1 * length as f32) as i32;
    let (_, strength, _) = font.strength();
    let found = hb_font_extents_t {
        ascender: times(ascender + strength),
        descender: times(descender),
        line_gap: times(line_gap),
        ..Default::default()
    };
    // SAFETY: the caller's place.
    unsafe { put(extents, found) };
    1
}
