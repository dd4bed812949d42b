//! The items of a buffer.

use crate::buffer::{CONTEXT_LENGTH, NO_CONTENT, UNICODE, changing, hb_buffer_t, hb_glyph_info_t, hb_glyph_position_t};
use crate::types::{hb_bool_t, put};
use std::ffi::c_uint;
use std::ptr::null_mut;

impl hb_buffer_t {
    fn set_length(&mut self, length: usize) -> bool {
        if !self.ensure(length) {
            return false;
        }
        self.infos.resize(length, hb_glyph_info_t::default());
        if self.have_positions {
            self.positions.resize(length, hb_glyph_position_t::default());
        }
        if length == 0 {
            self.content_type = NO_CONTENT;
            self.context[0].clear();
        }
        self.context[1].clear();
        true
    }

    fn append(&mut self, source: &hb_buffer_t, start: usize, end: usize) {
        let end = end.min(source.infos.len());
        let start = start.min(end);
        let length = self.infos.len();
        if start == end || !self.set_length(length + (end - start)) {
            return;
        }
        if length == 0 {
            self.content_type = source.content_type;
        }
        if !self.have_positions && source.have_positions {
            self.clear_positions();
        }
        self.properties.overlay(&source.properties);
        self.infos[length..].copy_from_slice(&source.infos[start..end]);
        if self.have_positions && source.have_positions {
            self.positions[length..].copy_from_slice(&source.positions[start..end]);
        }
        if source.content_type == UNICODE {
            self.append_context(source, length == 0, start, end);
        }
    }

    fn append_context(&mut self, source: &hb_buffer_t, is_first: bool, start: usize, end: usize) {
        let codepoint = |info: &hb_glyph_info_t| info.codepoint;
        if is_first && start + source.context[0].len() > 0 {
            let before = source.infos[..start].iter().rev().map(codepoint).chain(source.context[0].iter().copied());
            self.context[0] = before.take(CONTEXT_LENGTH).collect();
        }
        let behind = source.infos[end..].iter().map(codepoint).chain(source.context[1].iter().copied());
        self.context[1] = behind.take(CONTEXT_LENGTH).collect();
    }

    fn reverse_range(&mut self, start: usize, end: usize) {
        if let Some(infos) = self.infos.get_mut(start..end) {
            infos.reverse();
            if self.have_positions {
                self.positions[start..end].reverse();
            }
        }
    }

    /// Where each run of items of one cluster begins and ends.
    pub fn clusters(&self) -> Vec<std::ops::Range<usize>> {
        let mut start = 0;
        let groups = self.infos.chunk_by(|first, second| first.cluster == second.cluster);
        let range = |group: &[hb_glyph_info_t]| {
            start += group.len();
            start - group.len()..start
        };
        groups.map(range).collect()
    }
}

#[unsafe(no_mangle)]
pub unsafe extern "C" fn hb_buffer_pre_allocate(buffer: *mut hb_buffer_t, size: c_uint) -> hb_bool_t {
    // SAFETY: HarfBuzz's terms: a buffer that is alive, and that nobody else uses.
    unsafe { changing(buffer) }.is_some_and(|buffer| buffer.ensure(size as usize)).into()
}

#[unsafe(no_mangle)]
pub unsafe extern "C" fn hb_buffer_allocation_successful(buffer: *mut hb_buffer_t) -> hb_bool_t {
    // SAFETY: HarfBuzz's terms: a buffer that is alive.
    unsafe { &*buffer }.successful.into()
}

#[unsafe(no_mangle)]
pub unsafe extern "C" fn hb_buffer_set_length(buffer: *mut hb_buffer_t, length: c_uint) -> hb_bool_t {
    // SAFETY: HarfBuzz's terms: a buffer that is alive, and that nobody else uses.
    match unsafe { changing(buffer) } {
        Some(buffer) => buffer.set_length(length as usize).into(),
        None => (length == 0).into(),
    }
}

#[unsafe(no_mangle)]
pub unsafe extern "C" fn hb_buffer_get_length(buffer: *const hb_buffer_t) -> c_uint {
    // SAFETY: HarfBuzz's terms: a buffer that is alive.
    unsafe { &*buffer }.infos.len() as c_uint
}

#[unsafe(no_mangle)]
pub unsafe extern "C" fn hb_buffer_get_glyph_infos(buffer: *mut hb_buffer_t, length: *mut c_uint) -> *mut hb_glyph_info_t {
    // SAFETY: HarfBuzz's terms: a buffer that is alive, and a place or null.
    unsafe {
        put(length, (*buffer).infos.len() as c_uint);
        match changing(buffer) {
            Some(buffer) => buffer.infos.as_mut_ptr(),
            None => null_mut(),
        }
    }
}

#[unsafe(no_mangle)]
pub unsafe extern "C" fn hb_buffer_get_glyph_positions(
    buffer: *mut hb_buffer_t,
    length: *mut c_uint,
) -> *mut hb_glyph_position_t {
    // SAFETY: HarfBuzz's terms: a buffer that is alive, and a place or null.
    unsafe { put(length, (*buffer).infos.len() as c_uint) };
    // SAFETY: as above, and nobody else uses it.
    let Some(buffer) = (unsafe { changing(buffer) }) else {
        return null_mut();
    };
    if !buffer.have_positions {
        if buffer.message_depth > 0 {
            return null_mut();
        }
        buffer.clear_positions();
    }
    buffer.positions.as_mut_ptr()
}

#[unsafe(no_mangle)]
pub unsafe extern "C" fn hb_buffer_has_positions(buffer: *mut hb_buffer_t) -> hb_bool_t {
    // SAFETY: HarfBuzz's terms: a buffer that is alive.
    unsafe { &*buffer }.have_positions.into()
}

#[unsafe(no_mangle)]
pub unsafe extern "C" fn hb_glyph_info_get_glyph_flags(info: *const hb_glyph_info_t) -> c_uint {
    // SAFETY: HarfBuzz's terms: an item.
    unsafe { &*info }.mask & crate::buffer::GLYPH_FLAGS
}

#[unsafe(no_mangle)]
pub unsafe extern "C" fn hb_buffer_append(buffer: *mut hb_buffer_t, source: *const hb_buffer_t, start: c_uint, end: c_uint) {
    if std::ptr::eq(buffer, source) {
        return;
    }
    // SAFETY: HarfBuzz's terms: two buffers that are alive; nobody else uses the first.
    if let Some(buffer) = unsafe { changing(buffer) } {
        // SAFETY: as above, and the two are not the same.
        buffer.append(unsafe { &*source }, start as usize, end as usize);
    }
}

#[unsafe(no_mangle)]
pub unsafe extern "C" fn hb_buffer_reverse(buffer: *mut hb_buffer_t) {
    // SAFETY: HarfBuzz's terms: a buffer that is alive, and that nobody else uses.
    if let Some(buffer) = unsafe { changing(buffer) } {
        buffer.reverse_range(0, buffer.infos.len());
    }
}

#[unsafe(no_mangle)]
pub unsafe extern "C" fn hb_buffer_reverse_range(buffer: *mut hb_buffer_t, start: c_uint, end: c_uint) {
    // SAFETY: HarfBuzz's terms: a buffer that is alive, and that nobody else uses.
    if let Some(buffer) = unsafe { changing(buffer) } {
        buffer.reverse_range(start as usize, end as usize);
    }
}

#[unsafe(no_mangle)]
pub unsafe extern "C" fn hb_buffer_reverse_clusters(buffer: *mut hb_buffer_t) {
    // SAFETY: HarfBuzz's terms: a buffer that is alive, and that nobody else uses.
    if let Some(buffer) = unsafe { changing(buffer) } {
        for range in buffer.clusters() {
            buffer.reverse_range(range.start, range.end);
        }
        buffer.reverse_range(0, buffer.infos.len());
    }
}
