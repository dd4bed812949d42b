//! `hb-ot-meta.h`: data about a font (OpenType specification, "meta - Metadata Table").

use crate::blob::hb_blob_t;
use crate::face::hb_face_t;
use crate::object::Object;
use crate::sfnt::{tail, u32_at};
use crate::types::{hb_tag_t, put_part};
use std::ffi::c_uint;

/// The records of the table: a tag, an offset and a length each.
fn records(table: &[u8]) -> impl ExactSizeIterator<Item = &[u8]> {
    let rows = tail(table, 16);
    let count = if u32_at(table, 0) == 1 { u32_at(table, 12) as usize } else { 0 };
    rows.chunks_exact(12).take(count)
}

#[unsafe(no_mangle)]
pub unsafe extern "C" fn hb_ot_meta_get_entry_tags(
    face: *mut hb_face_t,
    start: c_uint,
    count: *mut c_uint,
    tags: *mut hb_tag_t,
) -> c_uint {
    // SAFETY: HarfBuzz's terms: a face that is alive, and room for `count` tags.
    unsafe { put_part(records((*face).table(b"meta")).map(|record| u32_at(record, 0)), start, count, tags) }
}

#[unsafe(no_mangle)]
pub unsafe extern "C" fn hb_ot_meta_reference_entry(face: *mut hb_face_t, tag: hb_tag_t) -> *mut hb_blob_t {
    // SAFETY: HarfBuzz's terms: a face that is alive.
    let face = unsafe { &*face };
    match records(face.table(b"meta")).find(|record| u32_at(record, 0) == tag) {
        Some(record) => face.table_part(b"meta", u32_at(record, 4) as usize, u32_at(record, 8) as usize),
        None => hb_blob_t::empty(),
    }
}
