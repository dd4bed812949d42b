//! `hb-version.h`: the version of HarfBuzz whose interface this is.

use crate::types::{hb_bool_t, put};
use std::ffi::{c_char, c_uint};

const VERSION: (c_uint, c_uint, c_uint) = (10, 2, 0);

#[unsafe(no_mangle)]
pub unsafe extern "C" fn hb_version(major: *mut c_uint, minor: *mut c_uint, micro: *mut c_uint) {
    // SAFETY: HarfBuzz's terms: three places.
    unsafe {
        put(major, VERSION.0);
        put(minor, VERSION.1);
        put(micro, VERSION.2);
    }
}

#[unsafe(no_mangle)]
pub extern "C" fn hb_version_string() -> *const c_char {
    c"10.2.0".as_ptr()
}

#[unsafe(no_mangle)]
pub extern "C" fn hb_version_atleast(major: c_uint, minor: c_uint, micro: c_uint) -> hb_bool_t {
    (VERSION >= (major, minor, micro)).into()
}
