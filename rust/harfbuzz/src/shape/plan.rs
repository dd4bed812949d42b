//! Shape plans: what a text is shaped by, said once. The proved shaper keeps the plan of the last text of each font, and so a plan here
//! is no more than what it was made for.

pub mod lookups;

use crate::buffer::hb_buffer_t;
use crate::buffer::properties::hb_segment_properties_t;
use crate::common::features::hb_feature_t;
use crate::face::{hb_face_destroy, hb_face_t};
use crate::font::hb_font_t;
use crate::object::{Empty, Header, Object, given, object_calls, reference};
use crate::shape::{Shaper, shape_by};
use crate::types::{hb_bool_t, is_valid, slice};
use std::ffi::{c_char, c_int, c_uint};
use std::ptr::null;

pub struct hb_shape_plan_t {
    header: Header,
    face: *mut hb_face_t,
    shaper: Option<Shaper>,
    properties: hb_segment_properties_t,
    features: Vec<hb_feature_t>,
    /// The normalized coordinates of the variations that are chosen.
    coordinates: Vec<i32>,
}

impl Object for hb_shape_plan_t {
    fn header(&self) -> &Header {
        &self.header
    }

    fn empty() -> *mut Self {
        static EMPTY: Empty<hb_shape_plan_t> = Empty::new();
        EMPTY.get(|| hb_shape_plan_t {
            header: Header::of_empty(),
            face: hb_face_t::empty(),
            shaper: None,
            properties: hb_segment_properties_t::default(),
            features: Vec::new(),
            coordinates: Vec::new(),
        })
    }
}

object_calls!(hb_shape_plan_t: hb_shape_plan_get_empty hb_shape_plan_reference hb_shape_plan_destroy hb_shape_plan_set_user_data hb_shape_plan_get_user_data);

impl Drop for hb_shape_plan_t {
    fn drop(&mut self) {
        // SAFETY: the plan gives up its own reference.
        unsafe { hb_face_destroy(self.face) }
    }
}

/// # Safety
///
/// `face` is alive or null, `properties` has properties or is null, and `shapers` is null or a list of names.
unsafe fn created(
    face: *mut hb_face_t,
    properties: *const hb_segment_properties_t,
    features: &[hb_feature_t],
    coordinates: &[c_int],
    shapers: *const *const c_char,
) -> *mut hb_shape_plan_t {
    // SAFETY: the caller's word.
    unsafe {
        let Some(properties) = properties.as_ref().copied().filter(|properties| is_valid(properties.direction)) else {
            return hb_shape_plan_t::empty();
        };
        let face = if face.is_null() { hb_face_t::empty() } else { face };
        crate::face::hb_face_make_immutable(face);
        match Shaper::of_list(shapers) {
            Some(shaper) => given(hb_shape_plan_t {
                header: Header::new(),
                face: reference(face),
                shaper: Some(shaper),
                properties,
                features: features.to_vec(),
                coordinates: coordinates.to_vec(),
            }),
            None => hb_shape_plan_t::empty(),
        }
    }
}

/// The calls that make a plan.
macro_rules! create {
    ($($call:ident($($coordinates:ident: $type:ty),*) $chosen:expr;)*) => {
        $(
            #[unsafe(no_mangle)]
            pub unsafe extern "C" fn $call(
                face: *mut hb_face_t,
                properties: *const hb_segment_properties_t,
                features: *const hb_feature_t,
                count: c_uint,
                $($coordinates: $type,)*
                shapers: *const *const c_char,
            ) -> *mut hb_shape_plan_t {
                // SAFETY: HarfBuzz's terms: a face that is alive, properties, so many features and coordinates, and a list of names or
                // null.
                unsafe { created(face, properties, slice(features, count as usize), $chosen, shapers) }
            }
        )*
    };
}

create! {
    hb_shape_plan_create() &[];
    hb_shape_plan_create_cached() &[];
    hb_shape_plan_create2(coordinates: *const c_int, chosen: c_uint) slice(coordinates, chosen as usize);
    hb_shape_plan_create_cached2(coordinates: *const c_int, chosen: c_uint) slice(coordinates, chosen as usize);
}

#[unsafe(no_mangle)]
pub unsafe extern "C" fn hb_shape_plan_execute(
    plan: *mut hb_shape_plan_t,
    font: *mut hb_font_t,
    buffer: *mut hb_buffer_t,
    features: *const hb_feature_t,
    count: c_uint,
) -> hb_bool_t {
    // SAFETY: HarfBuzz's terms: a plan and a font that are alive, a buffer that nobody else uses, and so many features.
    unsafe {
        if (*buffer).infos.is_empty() {
            return 1;
        }
        match (*plan).shaper {
            Some(shaper) => shape_by(shaper, font, buffer, slice(features, count as usize)).into(),
            None => 0,
        }
    }
}

#[unsafe(no_mangle)]
pub unsafe extern "C" fn hb_shape_plan_get_shaper(plan: *mut hb_shape_plan_t) -> *const c_char {
    // SAFETY: HarfBuzz's terms: a plan that is alive.
    unsafe { &*plan }.shaper.map_or(null(), Shaper::name)
}
