//! What is set of a font.

use crate::face::hb_face_t;
use crate::font::functions::{hb_font_funcs_destroy, hb_font_funcs_t};
use crate::font::{Bold, hb_font_destroy, hb_font_t};
use crate::object::{Object, reference, release};
use crate::types::{hb_bool_t, hb_destroy_func_t, put};
use std::ffi::{c_int, c_uint, c_void};

/// The font, where it may be changed; it is marked as changed then.
///
/// # Safety
///
/// `font` is alive.
unsafe fn changing<'a>(font: *mut hb_font_t) -> Option<&'a hb_font_t> {
    // SAFETY: the caller's word.
    let font = unsafe { &*font };
    if font.is_immutable() {
        return None;
    }
    font.changed();
    Some(font)
}

#[unsafe(no_mangle)]
pub unsafe extern "C" fn hb_font_get_serial(font: *mut hb_font_t) -> c_uint {
    // SAFETY: HarfBuzz's terms: a font that is alive.
    unsafe { &*font }.serial.get()
}

#[unsafe(no_mangle)]
pub unsafe extern "C" fn hb_font_changed(font: *mut hb_font_t) {
    // SAFETY: HarfBuzz's terms: a font that is alive.
    unsafe { changing(font) };
}

#[unsafe(no_mangle)]
pub unsafe extern "C" fn hb_font_set_parent(font: *mut hb_font_t, parent: *mut hb_font_t) {
    // SAFETY: HarfBuzz's terms: fonts that are alive.
    if let Some(font) = unsafe { changing(font) } {
        let parent = if parent.is_null() { hb_font_t::empty() } else { parent };
        // SAFETY: as above; the font gives up the reference that it had.
        unsafe { hb_font_destroy(font.parent.replace(reference(parent))) }
    }
}

#[unsafe(no_mangle)]
pub unsafe extern "C" fn hb_font_get_parent(font: *mut hb_font_t) -> *mut hb_font_t {
    // SAFETY: HarfBuzz's terms: a font that is alive.
    unsafe { &*font }.parent.get()
}

#[unsafe(no_mangle)]
pub unsafe extern "C" fn hb_font_set_face(font: *mut hb_font_t, face: *mut hb_face_t) {
    // SAFETY: HarfBuzz's terms: a font and a face that are alive.
    if let Some(font) = unsafe { changing(font) } {
        let face = if face.is_null() { hb_face_t::empty() } else { face };
        // SAFETY: as above; the font gives up the reference that it had.
        unsafe {
            crate::face::hb_face_make_immutable(face);
            crate::face::hb_face_destroy(font.face.replace(reference(face)));
        }
    }
}

#[unsafe(no_mangle)]
pub unsafe extern "C" fn hb_font_get_face(font: *mut hb_font_t) -> *mut hb_face_t {
    // SAFETY: HarfBuzz's terms: a font that is alive.
    unsafe { &*font }.face.get()
}

#[unsafe(no_mangle)]
pub unsafe extern "C" fn hb_font_set_funcs(
    font: *mut hb_font_t,
    class: *mut hb_font_funcs_t,
    data: *mut c_void,
    destroy: hb_destroy_func_t,
) {
    // SAFETY: HarfBuzz's terms: a font that is alive.
    let Some(font) = (unsafe { changing(font) }) else {
        return release(data, destroy);
    };
    let class = if class.is_null() { hb_font_funcs_t::empty() } else { class };
    release(font.data.get(), font.destroy.get());
    // SAFETY: as above, of functions; the font gives up the reference that it had.
    unsafe { hb_font_funcs_destroy(font.class.replace(reference(class))) };
    font.data.set(data);
    font.destroy.set(destroy);
}

#[unsafe(no_mangle)]
pub unsafe extern "C" fn hb_font_set_funcs_data(font: *mut hb_font_t, data: *mut c_void, destroy: hb_destroy_func_t) {
    // SAFETY: HarfBuzz's terms: a font that is alive.
    let Some(font) = (unsafe { changing(font) }) else {
        return release(data, destroy);
    };
    release(font.data.get(), font.destroy.get());
    font.data.set(data);
    font.destroy.set(destroy);
}

#[unsafe(no_mangle)]
pub unsafe extern "C" fn hb_font_set_scale(font: *mut hb_font_t, x: c_int, y: c_int) {
    // SAFETY: HarfBuzz's terms: a font that is alive.
    if unsafe { &*font }.scale.get() == (x, y) {
        return;
    }
    // SAFETY: as above.
    if let Some(font) = unsafe { changing(font) } {
        font.scale.set((x, y));
    }
}

#[unsafe(no_mangle)]
pub unsafe extern "C" fn hb_font_get_scale(font: *mut hb_font_t, x: *mut c_int, y: *mut c_int) {
    // SAFETY: HarfBuzz's terms: a font that is alive, and places or null.
    unsafe {
        put(x, (*font).scale.get().0);
        put(y, (*font).scale.get().1);
    }
}

#[unsafe(no_mangle)]
pub unsafe extern "C" fn hb_font_set_ppem(font: *mut hb_font_t, x: c_uint, y: c_uint) {
    // SAFETY: HarfBuzz's terms: a font that is alive.
    if unsafe { &*font }.ppem.get() == (x, y) {
        return;
    }
    // SAFETY: as above.
    if let Some(font) = unsafe { changing(font) } {
        font.ppem.set((x, y));
    }
}

#[unsafe(no_mangle)]
pub unsafe extern "C" fn hb_font_get_ppem(font: *mut hb_font_t, x: *mut c_uint, y: *mut c_uint) {
    // SAFETY: HarfBuzz's terms: a font that is alive, and places or null.
    unsafe {
        put(x, (*font).ppem.get().0);
        put(y, (*font).ppem.get().1);
    }
}

#[unsafe(no_mangle)]
pub unsafe extern "C" fn hb_font_set_ptem(font: *mut hb_font_t, points: f32) {
    // SAFETY: HarfBuzz's terms: a font that is alive.
    if unsafe { &*font }.points.get() == points {
        return;
    }
    // SAFETY: as above.
    if let Some(font) = unsafe { changing(font) } {
        font.points.set(points);
    }
}

#[unsafe(no_mangle)]
pub unsafe extern "C" fn hb_font_get_ptem(font: *mut hb_font_t) -> f32 {
    // SAFETY: HarfBuzz's terms: a font that is alive.
    unsafe { &*font }.points.get()
}

#[unsafe(no_mangle)]
pub unsafe extern "C" fn hb_font_set_synthetic_bold(font: *mut hb_font_t, x: f32, y: f32, in_place: hb_bool_t) {
    // SAFETY: HarfBuzz's terms: a font that is alive.
    let before = unsafe { &*font }.bold.get();
    if (before.x, before.y, before.in_place) == (x, y, in_place != 0) {
        return;
    }
    // SAFETY: as above.
    if let Some(font) = unsafe { changing(font) } {
        font.bold.set(Bold { x, y, in_place: in_place != 0 });
    }
}

#[unsafe(no_mangle)]
pub unsafe extern "C" fn hb_font_get_synthetic_bold(font: *mut hb_font_t, x: *mut f32, y: *mut f32, in_place: *mut hb_bool_t) {
    // SAFETY: HarfBuzz's terms: a font that is alive, and places or null.
    unsafe {
        let bold = (*font).bold.get();
        put(x, bold.x);
        put(y, bold.y);
        put(in_place, bold.in_place.into());
    }
}

#[unsafe(no_mangle)]
pub unsafe extern "C" fn hb_font_set_synthetic_slant(font: *mut hb_font_t, slant: f32) {
    // SAFETY: HarfBuzz's terms: a font that is alive.
    if unsafe { &*font }.slant.get() == slant {
        return;
    }
    // SAFETY: as above.
    if let Some(font) = unsafe { changing(font) } {
        font.slant.set(slant);
    }
}

#[unsafe(no_mangle)]
pub unsafe extern "C" fn hb_font_get_synthetic_slant(font: *mut hb_font_t) -> f32 {
    // SAFETY: HarfBuzz's terms: a font that is alive.
    unsafe { &*font }.slant.get()
}
