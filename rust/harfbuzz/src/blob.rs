//! `hb-blob.h`: bytes with an owner.

use crate::object::{Empty, Header, Object, given, object_calls, reference, release};
use crate::types::{hb_bool_t, hb_destroy_func_t, put};
use std::cell::Cell;
use std::ffi::{CStr, OsStr, c_char, c_int, c_uint, c_void};
use std::os::unix::ffi::OsStrExt;
use std::ptr::null_mut;

pub type hb_memory_mode_t = c_int;

const DUPLICATE: hb_memory_mode_t = 0;
const READONLY: hb_memory_mode_t = 1;
const WRITABLE: hb_memory_mode_t = 2;

/// Bytes, with the function that gives them back.
pub struct hb_blob_t {
    header: Header,
    data: Cell<*const u8>,
    length: Cell<usize>,
    mode: Cell<hb_memory_mode_t>,
    user_data: Cell<*mut c_void>,
    destroy: Cell<hb_destroy_func_t>,
}

impl Object for hb_blob_t {
    fn header(&self) -> &Header {
        &self.header
    }

    fn empty() -> *mut Self {
        static EMPTY: Empty<hb_blob_t> = Empty::new();
        EMPTY.get(|| hb_blob_t::of(Header::of_empty(), &[], READONLY))
    }
}

object_calls!(hb_blob_t: hb_blob_get_empty hb_blob_reference hb_blob_destroy hb_blob_set_user_data hb_blob_get_user_data);

impl hb_blob_t {
    fn of(header: Header, bytes: &[u8], mode: hb_memory_mode_t) -> Self {
        hb_blob_t {
            header,
            data: Cell::new(bytes.as_ptr()),
            length: Cell::new(bytes.len()),
            mode: Cell::new(mode),
            user_data: Cell::new(null_mut()),
            destroy: Cell::new(None),
        }
    }

    /// A blob that owns these bytes.
    pub fn owning(bytes: Vec<u8>) -> *mut hb_blob_t {
        if bytes.is_empty() {
            return hb_blob_t::empty();
        }
        let blob = hb_blob_t::of(Header::new(), &[], READONLY);
        blob.own(bytes);
        given(blob)
    }

    /// Takes these bytes in the place of those that it had.
    fn own(&self, bytes: Vec<u8>) {
        let bytes = Box::new(bytes);
        self.data.set(bytes.as_ptr());
        self.length.set(bytes.len());
        self.mode.set(WRITABLE);
        self.user_data.set(Box::into_raw(bytes).cast());
        self.destroy.set(Some(free_bytes));
    }

    pub fn bytes(&self) -> &[u8] {
        // SAFETY: the maker's word: so many bytes stand there until `destroy` is called, which `Drop` and `make_writable` do.
        unsafe { crate::types::slice(self.data.get(), self.length.get()) }
    }

    fn make_writable(&self) {
        if self.mode.get() != WRITABLE && self.length.get() > 0 {
            let copy = self.bytes().to_vec();
            release(self.user_data.get(), self.destroy.get());
            self.own(copy);
        }
        self.mode.set(WRITABLE);
    }
}

unsafe extern "C" fn free_bytes(bytes: *mut c_void) {
    // SAFETY: `own` made it of such a box.
    drop(unsafe { Box::from_raw(bytes.cast::<Vec<u8>>()) });
}

impl Drop for hb_blob_t {
    fn drop(&mut self) {
        release(self.user_data.get(), self.destroy.get());
    }
}

/// The part of a blob from `offset` on, as a blob that holds it.
pub fn part(parent: *mut hb_blob_t, offset: usize, length: usize) -> *mut hb_blob_t {
    // SAFETY: this module's callers pass a blob that is alive, or null.
    let Some(blob) = (unsafe { parent.as_ref() }) else {
        return hb_blob_t::empty();
    };
    if length == 0 || offset >= blob.length.get() {
        return hb_blob_t::empty();
    }
    blob.header.make_immutable();
    let length = length.min(blob.length.get() - offset);
    let part = hb_blob_t::of(Header::new(), &blob.bytes()[offset..offset + length], READONLY);
    // SAFETY: the parent is alive.
    part.user_data.set(unsafe { reference(parent) }.cast());
    part.destroy.set(Some(destroy_parent));
    given(part)
}

unsafe extern "C" fn destroy_parent(parent: *mut c_void) {
    // SAFETY: `part` took a reference of it.
    unsafe { hb_blob_destroy(parent.cast()) }
}

#[unsafe(no_mangle)]
pub unsafe extern "C" fn hb_blob_create(
    data: *const c_char,
    length: c_uint,
    mode: hb_memory_mode_t,
    user_data: *mut c_void,
    destroy: hb_destroy_func_t,
) -> *mut hb_blob_t {
    if length == 0 {
        release(user_data, destroy);
        return hb_blob_t::empty();
    }
    // SAFETY: the same terms.
    let blob = unsafe { hb_blob_create_or_fail(data, length, mode, user_data, destroy) };
    if blob.is_null() { hb_blob_t::empty() } else { blob }
}

#[unsafe(no_mangle)]
pub unsafe extern "C" fn hb_blob_create_or_fail(
    data: *const c_char,
    length: c_uint,
    mode: hb_memory_mode_t,
    user_data: *mut c_void,
    destroy: hb_destroy_func_t,
) -> *mut hb_blob_t {
    if length >= 1 << 31 {
        release(user_data, destroy);
        return null_mut();
    }
    // SAFETY: HarfBuzz's terms: `length` bytes that stay until `destroy` is called.
    let blob = hb_blob_t::of(Header::new(), unsafe { crate::types::slice(data.cast(), length as usize) }, mode);
    blob.user_data.set(user_data);
    blob.destroy.set(destroy);
    if mode == DUPLICATE {
        blob.make_writable();
    }
    given(blob)
}

#[unsafe(no_mangle)]
pub unsafe extern "C" fn hb_blob_create_from_file(name: *const c_char) -> *mut hb_blob_t {
    // SAFETY: the same terms.
    let blob = unsafe { hb_blob_create_from_file_or_fail(name) };
    if blob.is_null() { hb_blob_t::empty() } else { blob }
}

#[unsafe(no_mangle)]
pub unsafe extern "C" fn hb_blob_create_from_file_or_fail(name: *const c_char) -> *mut hb_blob_t {
    // SAFETY: HarfBuzz's terms: a text with a zero behind it.
    let name = OsStr::from_bytes(unsafe { CStr::from_ptr(name) }.to_bytes());
    match std::fs::read(name) {
        Ok(bytes) if bytes.len() < 1 << 31 => hb_blob_t::owning(bytes),
        _ => null_mut(),
    }
}

#[unsafe(no_mangle)]
pub unsafe extern "C" fn hb_blob_create_sub_blob(parent: *mut hb_blob_t, offset: c_uint, length: c_uint) -> *mut hb_blob_t {
    part(parent, offset as usize, length as usize)
}

#[unsafe(no_mangle)]
pub unsafe extern "C" fn hb_blob_copy_writable_or_fail(blob: *mut hb_blob_t) -> *mut hb_blob_t {
    // SAFETY: HarfBuzz's terms: a blob that is alive.
    let copy = hb_blob_t::of(Header::new(), unsafe { &*blob }.bytes(), READONLY);
    copy.make_writable();
    given(copy)
}

#[unsafe(no_mangle)]
pub unsafe extern "C" fn hb_blob_make_immutable(blob: *mut hb_blob_t) {
    // SAFETY: HarfBuzz's terms: a blob that is alive.
    unsafe { &*blob }.header.make_immutable();
}

#[unsafe(no_mangle)]
pub unsafe extern "C" fn hb_blob_is_immutable(blob: *mut hb_blob_t) -> hb_bool_t {
    // SAFETY: HarfBuzz's terms: a blob that is alive.
    unsafe { &*blob }.header.is_immutable().into()
}

#[unsafe(no_mangle)]
pub unsafe extern "C" fn hb_blob_get_length(blob: *mut hb_blob_t) -> c_uint {
    // SAFETY: HarfBuzz's terms: a blob that is alive.
    unsafe { &*blob }.length.get() as c_uint
}

#[unsafe(no_mangle)]
pub unsafe extern "C" fn hb_blob_get_data(blob: *mut hb_blob_t, length: *mut c_uint) -> *const c_char {
    // SAFETY: HarfBuzz's terms: a blob that is alive, and a place for its length or null.
    let blob = unsafe { &*blob };
    // SAFETY: as above.
    unsafe { put(length, blob.length.get() as c_uint) };
    if blob.length.get() == 0 && blob.user_data.get().is_null() {
        return std::ptr::null();
    }
    blob.data.get().cast()
}

#[unsafe(no_mangle)]
pub unsafe extern "C" fn hb_blob_get_data_writable(blob: *mut hb_blob_t, length: *mut c_uint) -> *mut c_char {
    // SAFETY: HarfBuzz's terms: a blob that is alive, and a place for its length or null.
    let blob = unsafe { &*blob };
    if blob.header.is_immutable() {
        // SAFETY: as above.
        unsafe { put(length, 0) };
        return null_mut();
    }
    blob.make_writable();
    // SAFETY: as above.
    unsafe { put(length, blob.length.get() as c_uint) };
    blob.data.get().cast_mut().cast()
}
