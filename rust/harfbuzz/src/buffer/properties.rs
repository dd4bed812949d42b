//! The direction, the script and the language of a text.

use crate::buffer::{changing, hb_buffer_t};
use crate::common::languages::{hb_language_get_default, hb_language_t};
use crate::common::scripts;
use crate::types::{DIRECTION_INVALID, LEFT_TO_RIGHT, hb_bool_t, hb_direction_t, hb_script_t};
use std::ffi::{c_uint, c_void};
use std::ptr::{null, null_mut};

#[repr(C)]
#[derive(Clone, Copy, Debug)]
pub struct hb_segment_properties_t {
    pub direction: hb_direction_t,
    pub script: hb_script_t,
    pub language: hb_language_t,
    reserved1: *mut c_void,
    reserved2: *mut c_void,
}

impl Default for hb_segment_properties_t {
    fn default() -> Self {
        let (reserved1, reserved2) = (null_mut(), null_mut());
        hb_segment_properties_t { direction: DIRECTION_INVALID, script: 0, language: null(), reserved1, reserved2 }
    }
}

impl hb_segment_properties_t {
    fn is_same(&self, other: &Self) -> bool {
        self.direction == other.direction && self.script == other.script && self.language == other.language
    }

    /// Takes what is not said from other properties, as far as the two agree.
    pub fn overlay(&mut self, other: &Self) {
        if self.direction == DIRECTION_INVALID {
            self.direction = other.direction;
        }
        if self.direction != other.direction {
            return;
        }
        if self.script == 0 {
            self.script = other.script;
        }
        if self.script == other.script && self.language.is_null() {
            self.language = other.language;
        }
    }
}

impl hb_buffer_t {
    /// Guesses what was not said, by the first character of a script.
    pub fn guess_properties(&mut self) {
        if self.properties.script == 0 {
            let scripts = self.infos.iter().map(|info| self.unicode().script(info.codepoint));
            self.properties.script = scripts.into_iter().find(|script| scripts::is_of_text(*script)).unwrap_or(0);
        }
        if self.properties.direction == DIRECTION_INVALID {
            let direction = scripts::hb_script_get_horizontal_direction(self.properties.script);
            self.properties.direction = if direction == DIRECTION_INVALID { LEFT_TO_RIGHT } else { direction };
        }
        if self.properties.language.is_null() {
            self.properties.language = hb_language_get_default();
        }
    }
}

#[unsafe(no_mangle)]
pub unsafe extern "C" fn hb_segment_properties_equal(
    first: *const hb_segment_properties_t,
    second: *const hb_segment_properties_t,
) -> hb_bool_t {
    // SAFETY: HarfBuzz's terms: two places with properties.
    unsafe { (*first).is_same(&*second).into() }
}

#[unsafe(no_mangle)]
pub unsafe extern "C" fn hb_segment_properties_hash(properties: *const hb_segment_properties_t) -> c_uint {
    // SAFETY: HarfBuzz's terms: a place with properties.
    let properties = unsafe { &*properties };
    let language = (properties.language as usize as u64).wrapping_mul(0x9E37_79B9_7F4A_7C15) >> 32;
    properties.direction.wrapping_mul(31).wrapping_add(properties.script).wrapping_mul(31) ^ language as c_uint
}

#[unsafe(no_mangle)]
pub unsafe extern "C" fn hb_segment_properties_overlay(
    properties: *mut hb_segment_properties_t,
    source: *const hb_segment_properties_t,
) {
    // SAFETY: HarfBuzz's terms: two places with properties, or null.
    if let (Some(properties), Some(source)) = unsafe { (properties.as_mut(), source.as_ref()) } {
        properties.overlay(source);
    }
}

/// The calls that set and read a property of the text.
macro_rules! property {
    ($field:ident: $type:ty, $set:ident, $get:ident) => {
        #[unsafe(no_mangle)]
        pub unsafe extern "C" fn $set(buffer: *mut hb_buffer_t, value: $type) {
            // SAFETY: HarfBuzz's terms: a buffer that is alive, and that nobody else uses.
            if let Some(buffer) = unsafe { changing(buffer) } {
                buffer.properties.$field = value;
            }
        }

        #[unsafe(no_mangle)]
        pub unsafe extern "C" fn $get(buffer: *const hb_buffer_t) -> $type {
            // SAFETY: HarfBuzz's terms: a buffer that is alive.
            unsafe { &*buffer }.properties.$field
        }
    };
}

property!(direction: hb_direction_t, hb_buffer_set_direction, hb_buffer_get_direction);
property!(script: hb_script_t, hb_buffer_set_script, hb_buffer_get_script);
property!(language: hb_language_t, hb_buffer_set_language, hb_buffer_get_language);

#[unsafe(no_mangle)]
pub unsafe extern "C" fn hb_buffer_set_segment_properties(buffer: *mut hb_buffer_t, properties: *const hb_segment_properties_t) {
    // SAFETY: HarfBuzz's terms: a buffer that is alive, and that nobody else uses, and a place with properties.
    if let Some(buffer) = unsafe { changing(buffer) } {
        // SAFETY: as above.
        buffer.properties = unsafe { *properties };
    }
}

#[unsafe(no_mangle)]
pub unsafe extern "C" fn hb_buffer_get_segment_properties(buffer: *const hb_buffer_t, properties: *mut hb_segment_properties_t) {
    // SAFETY: HarfBuzz's terms: a buffer that is alive, and a place for properties.
    unsafe { *properties = (*buffer).properties }
}

#[unsafe(no_mangle)]
pub unsafe extern "C" fn hb_buffer_guess_segment_properties(buffer: *mut hb_buffer_t) {
    // SAFETY: HarfBuzz's terms: a buffer that is alive, and that nobody else uses.
    if let Some(buffer) = unsafe { changing(buffer) } {
        buffer.guess_properties();
    }
}
