//! The variations of a font that are chosen.

use crate::common::variations::hb_variation_t;
use crate::font::{NO_INSTANCE, hb_font_t};
use crate::ot::var::Axes;
use crate::types::{hb_tag_t, put, slice};
use std::ffi::{c_int, c_uint};

impl hb_font_t {
    fn axes(&self) -> Axes<'_> {
        Axes::of(self.face())
    }

    /// Chooses a value on each axis.
    fn choose(&self, design: Vec<f32>) {
        let coordinates = self.face().normalized(&design);
        self.changed();
        self.coordinates.replace(coordinates);
        self.design.replace(design);
    }

    /// The value of each axis of the named instance, or the default.
    fn first_values(&self) -> Vec<f32> {
        let axes = self.axes();
        let instance = match self.instance.get() {
            NO_INSTANCE => Vec::new(),
            instance => axes.instance_values(instance),
        };
        if instance.is_empty() { axes.iter().map(|axis| axis.default).collect() } else { instance }
    }

    fn set_values(&self, values: &mut [f32], variation: hb_variation_t) {
        for (value, axis) in values.iter_mut().zip(self.axes().iter()) {
            if axis.tag == variation.tag {
                *value = variation.value;
            }
        }
    }
}

pub fn set_instance(font: &hb_font_t, instance: u32) {
    if font.instance.get() == instance {
        return;
    }
    font.instance.set(instance);
    set_variations(font, &[]);
}

fn set_variations(font: &hb_font_t, variations: &[hb_variation_t]) {
    if variations.is_empty() && font.instance.get() == NO_INSTANCE {
        font.changed();
        font.coordinates.replace(Vec::new());
        font.design.replace(Vec::new());
        return;
    }
    let mut values = font.first_values();
    for variation in variations {
        font.set_values(&mut values, *variation);
    }
    font.choose(values);
}

#[unsafe(no_mangle)]
pub unsafe extern "C" fn hb_font_set_variations(font: *mut hb_font_t, variations: *const hb_variation_t, count: c_uint) {
    // SAFETY: HarfBuzz's terms: a font that is alive, and so many variations.
    let (font, variations) = unsafe { (&*font, slice(variations, count as usize)) };
    if !font.is_immutable() {
        set_variations(font, variations);
    }
}

#[unsafe(no_mangle)]
pub unsafe extern "C" fn hb_font_set_variation(font: *mut hb_font_t, tag: hb_tag_t, value: f32) {
    // SAFETY: HarfBuzz's terms: a font that is alive.
    let font = unsafe { &*font };
    if font.is_immutable() {
        return;
    }
    let mut values = font.design.borrow().clone();
    if values.is_empty() {
        values = font.first_values();
    }
    font.set_values(&mut values, hb_variation_t { tag, value });
    font.choose(values);
}

#[unsafe(no_mangle)]
pub unsafe extern "C" fn hb_font_set_var_coords_design(font: *mut hb_font_t, coords: *const f32, count: c_uint) {
    // SAFETY: HarfBuzz's terms: a font that is alive, and so many coordinates.
    let (font, coords) = unsafe { (&*font, slice(coords, count as usize)) };
    if !font.is_immutable() {
        font.choose(coords.to_vec());
    }
}

#[unsafe(no_mangle)]
pub unsafe extern "C" fn hb_font_get_var_coords_design(font: *mut hb_font_t, count: *mut c_uint) -> *const f32 {
    // SAFETY: HarfBuzz's terms: a font that is alive, and a place or null.
    let design = unsafe { &*font }.design.borrow();
    // SAFETY: as above.
    unsafe { put(count, design.len() as c_uint) };
    if design.is_empty() { std::ptr::null() } else { design.as_ptr() }
}

#[unsafe(no_mangle)]
pub unsafe extern "C" fn hb_font_set_var_coords_normalized(font: *mut hb_font_t, coords: *const c_int, count: c_uint) {
    // SAFETY: HarfBuzz's terms: a font that is alive, and so many coordinates.
    let (font, coords) = unsafe { (&*font, slice(coords, count as usize)) };
    if font.is_immutable() {
        return;
    }
    font.changed();
    font.design.replace(font.axes().design_of(font.face(), coords));
    font.coordinates.replace(coords.to_vec());
}

#[unsafe(no_mangle)]
pub unsafe extern "C" fn hb_font_get_var_coords_normalized(font: *mut hb_font_t, count: *mut c_uint) -> *const c_int {
    // SAFETY: HarfBuzz's terms: a font that is alive, and a place or null.
    let coordinates = unsafe { &*font }.coordinates.borrow();
    // SAFETY: as above.
    unsafe { put(count, coordinates.len() as c_uint) };
    if coordinates.is_empty() { std::ptr::null() } else { coordinates.as_ptr() }
}

#[unsafe(no_mangle)]
pub unsafe extern "C" fn hb_font_set_var_named_instance(font: *mut hb_font_t, instance: c_uint) {
    // SAFETY: HarfBuzz's terms: a font that is alive.
    let font = unsafe { &*font };
    if !font.is_immutable() {
        set_instance(font, instance);
    }
}

#[unsafe(no_mangle)]
pub unsafe extern "C" fn hb_font_get_var_named_instance(font: *mut hb_font_t) -> c_uint {
    // SAFETY: HarfBuzz's terms: a font that is alive.
    unsafe { &*font }.instance.get()
}
