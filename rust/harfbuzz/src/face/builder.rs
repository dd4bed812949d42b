//! Faces that are put together of tables.

use crate::blob::{hb_blob_destroy, hb_blob_t};
use crate::face::{hb_face_create_for_tables, hb_face_set_get_table_tags_func, hb_face_t};
use crate::object::{Object, reference};
use crate::sfnt;
use crate::types::{hb_bool_t, hb_tag_t, put_part, tag};
use std::cell::RefCell;
use std::ffi::{c_uint, c_void};

/// A table that was added, with the place in the file that `sort` gave it.
struct Added {
    tag: hb_tag_t,
    blob: *mut hb_blob_t,
    place: Option<u32>,
}

#[derive(Default)]
struct Builder(RefCell<Vec<Added>>);

/// The version of a file of these tables.
fn version(tags: impl IntoIterator<Item = hb_tag_t>) -> u32 {
    let is_cff = tags.into_iter().any(|other| other == tag(b"CFF ") || other == tag(b"CFF2"));
    if is_cff { tag(b"OTTO") } else { 0x0001_0000 }
}

/// A font file of these tables.
pub fn file_of_tables(tables: &[(hb_tag_t, &[u8])]) -> Vec<u8> {
    sfnt::file_of(version(tables.iter().map(|(tag, _)| *tag)), tables)
}

impl Builder {
    fn file(&self) -> *mut hb_blob_t {
        let added = self.0.borrow();
        // SAFETY: the builder holds a reference of each of its blobs.
        let mut tables: Vec<_> = added.iter().map(|item| (item, unsafe { &*item.blob }.bytes())).collect();
        tables.sort_by_key(|(item, bytes)| (item.place.is_none(), item.place, bytes.len(), item.tag));
        let tables: Vec<_> = tables.into_iter().map(|(item, bytes)| (item.tag, bytes)).collect();
        hb_blob_t::owning(file_of_tables(&tables))
    }
}

impl Drop for Builder {
    fn drop(&mut self) {
        for item in self.0.get_mut() {
            // SAFETY: the builder gives up its own reference.
            unsafe { hb_blob_destroy(item.blob) }
        }
    }
}

unsafe extern "C" fn destroy_builder(builder: *mut c_void) {
    // SAFETY: `hb_face_builder_create` made it of a box.
    drop(unsafe { Box::from_raw(builder.cast::<Builder>()) });
}

unsafe extern "C" fn table_of_builder(_face: *mut hb_face_t, tag: hb_tag_t, builder: *mut c_void) -> *mut hb_blob_t {
    // SAFETY: the face's own data.
    let builder = unsafe { &*builder.cast::<Builder>() };
    if tag == 0 {
        return builder.file();
    }
    match builder.0.borrow().iter().find(|item| item.tag == tag) {
        // SAFETY: the builder holds a reference.
        Some(item) => unsafe { reference(item.blob) },
        None => hb_blob_t::empty(),
    }
}

unsafe extern "C" fn tags_of_builder(
    _face: *const hb_face_t,
    start: c_uint,
    count: *mut c_uint,
    tags: *mut hb_tag_t,
    builder: *mut c_void,
) -> c_uint {
    // SAFETY: the face's own data.
    let added = unsafe { &*builder.cast::<Builder>() }.0.borrow();
    // SAFETY: the caller's room.
    unsafe { put_part(added.iter().map(|item| item.tag), start, count, tags) }
}

#[unsafe(no_mangle)]
pub extern "C" fn hb_face_builder_create() -> *mut hb_face_t {
    let builder: *mut c_void = Box::into_raw(Box::<Builder>::default()).cast();
    let face = hb_face_create_for_tables(Some(table_of_builder), builder, Some(destroy_builder));
    // SAFETY: the face was just made.
    unsafe { hb_face_set_get_table_tags_func(face, Some(tags_of_builder), builder, None) };
    face
}

/// The builder of a face, where it was made by one.
fn builder_of<'a>(face: *mut hb_face_t) -> Option<&'a Builder> {
    // SAFETY: HarfBuzz's terms: a face that is alive.
    let face = unsafe { &*face };
    let destroy: unsafe extern "C" fn(*mut c_void) = destroy_builder;
    if face.destroy_tables.get().is_some_and(|other| std::ptr::fn_addr_eq(other, destroy)) {
        // SAFETY: such a face has a builder as its data.
        Some(unsafe { &*face.table_data.get().cast::<Builder>() })
    } else {
        None
    }
}

#[unsafe(no_mangle)]
pub unsafe extern "C" fn hb_face_builder_add_table(face: *mut hb_face_t, tag: hb_tag_t, blob: *mut hb_blob_t) -> hb_bool_t {
    let Some(builder) = builder_of(face).filter(|_| tag != 0) else {
        return 0;
    };
    // SAFETY: HarfBuzz's terms: a blob that is alive.
    let added = Added { tag, blob: unsafe { reference(blob) }, place: None };
    let mut items = builder.0.borrow_mut();
    match items.iter_mut().find(|item| item.tag == tag) {
        // SAFETY: the builder gives up the reference of the blob that it had.
        Some(item) => unsafe { hb_blob_destroy(std::mem::replace(item, added).blob) },
        None => items.push(added),
    }
    1
}

#[unsafe(no_mangle)]
pub unsafe extern "C" fn hb_face_builder_sort_tables(face: *mut hb_face_t, tags: *const hb_tag_t) {
    let Some(builder) = builder_of(face) else {
        return;
    };
    let mut items = builder.0.borrow_mut();
    for item in items.iter_mut() {
        item.place = None;
    }
    let mut place = 0;
    loop {
        // SAFETY: HarfBuzz's terms: tags with a 0 behind them.
        let tag = unsafe { *tags.add(place) };
        if tag == 0 {
            return;
        }
        if let Some(item) = items.iter_mut().find(|item| item.tag == tag) {
            item.place = Some(place as u32);
        }
        place += 1;
    }
}
