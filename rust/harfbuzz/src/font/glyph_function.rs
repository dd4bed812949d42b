//! The old call that sets one function for the glyphs of characters, alone or before a variation selector (`hb-deprecated.h`).

use crate::font::functions::{
    VariationGlyph, hb_font_funcs_set_nominal_glyph_func, hb_font_funcs_set_variation_glyph_func, hb_font_funcs_t,
};
use crate::font::hb_font_t;
use crate::object::{Object, release};
use crate::types::{hb_bool_t, hb_codepoint_t, hb_destroy_func_t};
use std::ffi::c_void;
use std::sync::Arc;

/// The caller's function and its data, which two functions share.
struct Shared {
    function: VariationGlyph,
    data: *mut c_void,
    destroy: hb_destroy_func_t,
}

// SAFETY: C passes data for whatever thread uses the font: HarfBuzz's terms.
unsafe impl Send for Shared {}
// SAFETY: the same.
unsafe impl Sync for Shared {}

impl Drop for Shared {
    fn drop(&mut self) {
        release(self.data, self.destroy);
    }
}

unsafe extern "C" fn nominal_glyph(
    font: *mut hb_font_t,
    font_data: *mut c_void,
    character: hb_codepoint_t,
    glyph: *mut hb_codepoint_t,
    shared: *mut c_void,
) -> hb_bool_t {
    // SAFETY: the same terms.
    unsafe { variation_glyph(font, font_data, character, 0, glyph, shared) }
}

unsafe extern "C" fn variation_glyph(
    font: *mut hb_font_t,
    font_data: *mut c_void,
    character: hb_codepoint_t,
    selector: hb_codepoint_t,
    glyph: *mut hb_codepoint_t,
    shared: *mut c_void,
) -> hb_bool_t {
    // SAFETY: the functions hold what they share, and the caller gave its function with its data.
    unsafe {
        let shared = &*shared.cast::<Shared>();
        (shared.function)(font, font_data, character, selector, glyph, shared.data)
    }
}

unsafe extern "C" fn drop_shared(shared: *mut c_void) {
    // SAFETY: each of the two functions gives up the reference that it was given.
    drop(unsafe { Arc::from_raw(shared.cast_const().cast::<Shared>()) });
}

#[unsafe(no_mangle)]
pub unsafe extern "C" fn hb_font_funcs_set_glyph_func(
    functions: *mut hb_font_funcs_t,
    function: Option<VariationGlyph>,
    data: *mut c_void,
    destroy: hb_destroy_func_t,
) {
    // SAFETY: HarfBuzz's terms: a set of functions that is alive.
    let is_fixed = unsafe { &*functions }.header().is_immutable();
    let Some(function) = function.filter(|_| !is_fixed) else {
        return release(data, destroy);
    };
    let shared = Arc::new(Shared { function, data, destroy });
    let [one, other] = [Arc::clone(&shared), shared].map(|shared| Arc::into_raw(shared).cast_mut().cast());
    // SAFETY: the same terms; each of the calls takes a reference over.
    unsafe {
        hb_font_funcs_set_nominal_glyph_func(functions, Some(nominal_glyph), one, Some(drop_shared));
        hb_font_funcs_set_variation_glyph_func(functions, Some(variation_glyph), other, Some(drop_shared));
    }
}
