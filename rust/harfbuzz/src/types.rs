//! The plain types of `hb-common.h`, and slices of what C passes.

use std::ffi::{c_char, c_int, c_uint, c_void};

pub type hb_bool_t = c_int;
pub type hb_codepoint_t = u32;
pub type hb_position_t = i32;
pub type hb_mask_t = u32;
pub type hb_tag_t = u32;
pub type hb_script_t = u32;
pub type hb_direction_t = c_uint;
pub type hb_destroy_func_t = Option<unsafe extern "C" fn(*mut c_void)>;

/// A key of a user's data: its address alone counts.
#[repr(C)]
pub struct hb_user_data_key_t {
    unused: c_char,
}

pub const DIRECTION_INVALID: hb_direction_t = 0;
pub const LEFT_TO_RIGHT: hb_direction_t = 4;
pub const RIGHT_TO_LEFT: hb_direction_t = 5;
pub const TOP_TO_BOTTOM: hb_direction_t = 6;
pub const BOTTOM_TO_TOP: hb_direction_t = 7;

pub fn is_valid(direction: hb_direction_t) -> bool {
    direction & !3 == 4
}

pub fn is_horizontal(direction: hb_direction_t) -> bool {
    direction & !1 == 4
}

pub fn is_backward(direction: hb_direction_t) -> bool {
    direction & !2 == 5
}

pub const fn tag(bytes: &[u8; 4]) -> hb_tag_t {
    u32::from_be_bytes(*bytes)
}

/// The items that C passes by an address and a count; none for a null address.
///
/// # Safety
///
/// `items` is null, or there are `count` items, which nobody changes while the slice is used.
pub unsafe fn slice<'a, T>(items: *const T, count: usize) -> &'a [T] {
    if items.is_null() || count == 0 {
        &[]
    } else {
        // SAFETY: the caller's word.
        unsafe { std::slice::from_raw_parts(items, count) }
    }
}

/// The items that C lends for writing.
///
/// # Safety
///
/// `items` is null, or there are `count` items, and nobody else uses them while the slice is used.
pub unsafe fn slice_mut<'a, T>(items: *mut T, count: usize) -> &'a mut [T] {
    if items.is_null() || count == 0 {
        &mut []
    } else {
        // SAFETY: the caller's word.
        unsafe { std::slice::from_raw_parts_mut(items, count) }
    }
}

/// The bytes of a text of C: `length` of them, or those before the first zero where it is negative.
///
/// # Safety
///
/// `text` is null, or has so many bytes.
pub unsafe fn bytes<'a>(text: *const c_char, length: c_int) -> &'a [u8] {
    if text.is_null() {
        return &[];
    }
    match usize::try_from(length) {
        // SAFETY: the caller's word.
        Ok(length) => unsafe { slice(text.cast(), length) },
        // SAFETY: the caller's word.
        Err(_) => unsafe { std::ffi::CStr::from_ptr(text) }.to_bytes(),
    }
}

/// Writes a value where C asks for it.
///
/// # Safety
///
/// `place` is null or a place for a value.
pub unsafe fn put<T>(place: *mut T, value: T) {
    if !place.is_null() {
        // SAFETY: the caller's word.
        unsafe { place.write(value) }
    }
}

/// Copies a part of a list in the way of HarfBuzz's queries: from `start` on as many as `*count` says, which then says how many
/// there were. The answer is the length of the whole list.
///
/// # Safety
///
/// `count` is null, or says how many places `items` has.
pub unsafe fn put_part<T>(all: impl ExactSizeIterator<Item = T>, start: c_uint, count: *mut c_uint, items: *mut T) -> c_uint {
    let length = all.len() as c_uint;
    if !count.is_null() {
        // SAFETY: the caller's word.
        let room = unsafe { *count } as usize;
        let mut written = 0;
        for (place, item) in all.skip(start as usize).take(room).enumerate() {
            // SAFETY: `place` is below the count that the caller gave.
            unsafe { items.add(place).write(item) };
            written += 1;
        }
        // SAFETY: the caller's word.
        unsafe { *count = written };
    }
    length
}

/// Writes a text into the room that C gives, cut to it, with a zero behind it.
///
/// # Safety
///
/// `room` has `size` bytes.
pub unsafe fn put_text(text: &[u8], room: *mut c_char, size: c_uint) {
    if size == 0 || room.is_null() {
        return;
    }
    let length = text.len().min(size as usize - 1);
    // SAFETY: `length + 1 <= size`.
    unsafe {
        std::ptr::copy_nonoverlapping(text.as_ptr(), room.cast(), length);
        *room.add(length) = 0;
    }
}
