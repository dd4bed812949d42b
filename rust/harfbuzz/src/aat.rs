//! `hb-aat-layout.h`: the features of Apple's fonts (Apple's TrueType reference, "The 'feat' table").

use crate::face::hb_face_t;
use crate::sfnt::{tail, u16_at, u32_at};
use crate::types::{hb_bool_t, put, put_part};
use std::ffi::c_uint;

const NO_NAME: c_uint = 0xFFFF;
const NO_SELECTOR: c_uint = 0xFFFF;
const EXCLUSIVE: u16 = 0x8000;
const NOT_FIRST: u16 = 0x4000;

/// A setting of a feature, with those that turn it on and off.
#[repr(C)]
#[derive(Clone, Copy, Debug)]
pub struct hb_aat_layout_feature_selector_info_t {
    name_id: c_uint,
    enable: c_uint,
    disable: c_uint,
    reserved: c_uint,
}

/// The features of the table.
fn features(table: &[u8]) -> impl ExactSizeIterator<Item = &[u8]> {
    let count = if u16_at(table, 0) == 1 { usize::from(u16_at(table, 4)) } else { 0 };
    tail(table, 12).chunks_exact(12).take(count)
}

/// A feature of this kind.
fn feature(table: &[u8], kind: c_uint) -> Option<&[u8]> {
    features(table).find(|feature| c_uint::from(u16_at(feature, 0)) == kind)
}

#[unsafe(no_mangle)]
pub unsafe extern "C" fn hb_aat_layout_get_feature_types(
    face: *mut hb_face_t,
    start: c_uint,
    count: *mut c_uint,
    kinds: *mut c_uint,
) -> c_uint {
    // SAFETY: HarfBuzz's terms: a face that is alive, and room for `count` kinds.
    unsafe { put_part(features((*face).table(b"feat")).map(|feature| u16_at(feature, 0).into()), start, count, kinds) }
}

#[unsafe(no_mangle)]
pub unsafe extern "C" fn hb_aat_layout_feature_type_get_name_id(face: *mut hb_face_t, kind: c_uint) -> c_uint {
    // SAFETY: HarfBuzz's terms: a face that is alive.
    feature(unsafe { &*face }.table(b"feat"), kind).map_or(NO_NAME, |feature| u16_at(feature, 10).into())
}

#[unsafe(no_mangle)]
pub unsafe extern "C" fn hb_aat_layout_feature_type_get_selector_infos(
    face: *mut hb_face_t,
    kind: c_uint,
    start: c_uint,
    count: *mut c_uint,
    selectors: *mut hb_aat_layout_feature_selector_info_t,
    default: *mut c_uint,
) -> c_uint {
    // SAFETY: HarfBuzz's terms: a face that is alive, room for `count` settings, and a place or null.
    let table = unsafe { &*face }.table(b"feat");
    let Some(feature) = feature(table, kind) else {
        // SAFETY: as above.
        unsafe {
            put(count, 0);
            put(default, NO_SELECTOR);
        }
        return 0;
    };
    let flags = u16_at(feature, 8);
    let settings = tail(table, u32_at(feature, 4) as usize);
    let chosen = if flags & NOT_FIRST != 0 { flags & 0xFF } else { 0 };
    let exclusive = flags & EXCLUSIVE != 0;
    let off = exclusive.then(|| c_uint::from(u16_at(settings, 4 * usize::from(chosen))));
    let rows = settings.chunks_exact(4).take(usize::from(u16_at(feature, 2)));
    let info = |row: &[u8]| {
        let enable = c_uint::from(u16_at(row, 0));
        let name_id = u16_at(row, 2).into();
        hb_aat_layout_feature_selector_info_t { name_id, enable, disable: off.unwrap_or(enable + 1), reserved: 0 }
    };
    // SAFETY: as above.
    unsafe {
        put(default, if exclusive { chosen.into() } else { NO_SELECTOR });
        put_part(rows.map(info), start, count, selectors)
    }
}

#[unsafe(no_mangle)]
pub unsafe extern "C" fn hb_aat_layout_has_substitution(face: *mut hb_face_t) -> hb_bool_t {
    // SAFETY: HarfBuzz's terms: a face that is alive.
    let face = unsafe { &*face };
    (u32_at(face.table(b"morx"), 0) != 0 || u32_at(face.table(b"mort"), 0) != 0).into()
}

#[unsafe(no_mangle)]
pub unsafe extern "C" fn hb_aat_layout_has_positioning(face: *mut hb_face_t) -> hb_bool_t {
    // SAFETY: HarfBuzz's terms: a face that is alive.
    (u32_at(unsafe { &*face }.table(b"kerx"), 0) != 0).into()
}

#[unsafe(no_mangle)]
pub unsafe extern "C" fn hb_aat_layout_has_tracking(face: *mut hb_face_t) -> hb_bool_t {
    // SAFETY: HarfBuzz's terms: a face that is alive.
    (u32_at(unsafe { &*face }.table(b"trak"), 0) != 0).into()
}
