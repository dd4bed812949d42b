//! `hb-graphite2.h`: no text is shaped by Graphite, so no face has one of Graphite's.

use crate::face::hb_face_t;
use crate::font::hb_font_t;
use std::ffi::c_void;
use std::ptr::null_mut;

/// The face by which Graphite shapes; null, as HarfBuzz answers of a face that Graphite does not shape.
#[unsafe(no_mangle)]
pub extern "C" fn hb_graphite2_face_get_gr_face(_: *mut hb_face_t) -> *mut c_void {
    null_mut()
}

/// Null, as in HarfBuzz since its version 1.4.2.
#[unsafe(no_mangle)]
pub extern "C" fn hb_graphite2_font_get_gr_font(_: *mut hb_font_t) -> *mut c_void {
    null_mut()
}
