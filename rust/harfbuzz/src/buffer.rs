//! `hb-buffer.h`: a text before it is shaped, and glyphs after it.

mod deserialize;
mod diff;
mod glyphs;
mod items;
pub mod properties;
mod serialize;
mod text;

use crate::buffer::properties::hb_segment_properties_t;
use crate::font::hb_font_t;
use crate::object::{Empty, Header, Object, given, object_calls, reference, release};
use crate::types::{hb_bool_t, hb_codepoint_t, hb_destroy_func_t, hb_mask_t, hb_position_t};
use crate::unicode::{hb_unicode_funcs_destroy, hb_unicode_funcs_get_default, hb_unicode_funcs_t};
use std::cell::Cell;
use std::ffi::{c_char, c_int, c_uint, c_void};
use std::ptr::null_mut;

/// A character before shaping, and a glyph after it.
#[repr(C)]
#[derive(Clone, Copy, Default, Debug)]
pub struct hb_glyph_info_t {
    pub codepoint: hb_codepoint_t,
    pub mask: hb_mask_t,
    pub cluster: u32,
    pub(crate) var1: u32,
    pub(crate) var2: u32,
}

/// Where a glyph is drawn.
#[repr(C)]
#[derive(Clone, Copy, Default, Debug)]
pub struct hb_glyph_position_t {
    pub x_advance: hb_position_t,
    pub y_advance: hb_position_t,
    pub x_offset: hb_position_t,
    pub y_offset: hb_position_t,
    pub(crate) var: u32,
}

pub type hb_buffer_message_func_t =
    Option<unsafe extern "C" fn(*mut hb_buffer_t, *mut hb_font_t, *const c_char, *mut c_void) -> hb_bool_t>;

pub const NO_CONTENT: c_uint = 0;
pub const UNICODE: c_uint = 1;
pub const GLYPHS: c_uint = 2;

/// The glyph flags of a mask.
pub const GLYPH_FLAGS: hb_mask_t = 7;
/// How many characters beside the text are kept.
pub const CONTEXT_LENGTH: usize = 5;
const REPLACEMENT: hb_codepoint_t = 0xFFFD;
const NO_CODEPOINT: hb_codepoint_t = u32::MAX;
/// The longest text.
const MAX_LENGTH: usize = (u32::MAX / 20) as usize;

/// Who is told of each step of shaping.
#[derive(Clone, Copy)]
pub struct Listener {
    pub function: hb_buffer_message_func_t,
    pub data: *mut c_void,
    destroy: hb_destroy_func_t,
}

pub struct hb_buffer_t {
    header: Header,
    unicode: Cell<*mut hb_unicode_funcs_t>,
    pub flags: c_uint,
    pub cluster_level: c_uint,
    replacement: hb_codepoint_t,
    pub invisible: hb_codepoint_t,
    pub not_found: hb_codepoint_t,
    pub not_found_variation_selector: hb_codepoint_t,
    random_state: c_uint,
    pub content_type: c_uint,
    pub properties: hb_segment_properties_t,
    pub successful: bool,
    pub infos: Vec<hb_glyph_info_t>,
    /// As many as there are glyphs, where `have_positions` says so.
    pub positions: Vec<hb_glyph_position_t>,
    pub have_positions: bool,
    /// The characters before the text, the nearest first, and those behind it.
    pub context: [Vec<hb_codepoint_t>; 2],
    pub listener: Listener,
    /// How many functions of listeners run at the moment.
    pub message_depth: c_int,
}

impl Object for hb_buffer_t {
    fn header(&self) -> &Header {
        &self.header
    }

    fn empty() -> *mut Self {
        static EMPTY: Empty<hb_buffer_t> = Empty::new();
        EMPTY.get(|| {
            let mut buffer = hb_buffer_t::of(Header::of_empty());
            buffer.successful = false;
            buffer
        })
    }
}

object_calls!(hb_buffer_t: hb_buffer_get_empty hb_buffer_reference hb_buffer_destroy hb_buffer_set_user_data hb_buffer_get_user_data);

impl Drop for hb_buffer_t {
    fn drop(&mut self) {
        release(self.listener.data, self.listener.destroy);
        // SAFETY: the buffer gives up its own reference.
        unsafe { hb_unicode_funcs_destroy(self.unicode.get()) }
    }
}

impl hb_buffer_t {
    fn of(header: Header) -> Self {
        hb_buffer_t {
            header,
            unicode: Cell::new(hb_unicode_funcs_get_default()),
            flags: 0,
            cluster_level: 0,
            replacement: REPLACEMENT,
            invisible: 0,
            not_found: 0,
            not_found_variation_selector: NO_CODEPOINT,
            random_state: 1,
            content_type: NO_CONTENT,
            properties: hb_segment_properties_t::default(),
            successful: true,
            infos: Vec::new(),
            positions: Vec::new(),
            have_positions: false,
            context: [Vec::new(), Vec::new()],
            listener: Listener { function: None, data: null_mut(), destroy: None },
            message_depth: 0,
        }
    }

    /// Takes what its user set of another buffer, but for its functions of Unicode.
    fn set_as(&mut self, other: &Self) {
        self.flags = other.flags;
        self.cluster_level = other.cluster_level;
        self.replacement = other.replacement;
        self.invisible = other.invisible;
        self.not_found = other.not_found;
        self.not_found_variation_selector = other.not_found_variation_selector;
    }

    pub fn unicode(&self) -> &hb_unicode_funcs_t {
        // SAFETY: the buffer holds a reference of its functions.
        unsafe { &*self.unicode.get() }
    }

    /// Makes room for so many items. A text that is too long is refused, as is each later change.
    pub fn ensure(&mut self, length: usize) -> bool {
        if length < self.infos.capacity() {
            return true;
        }
        if !self.successful {
            return false;
        }
        let more = length.saturating_sub(self.infos.len());
        self.successful = length <= MAX_LENGTH && self.infos.try_reserve(more + 1).is_ok();
        self.successful
    }

    pub fn push(&mut self, codepoint: hb_codepoint_t, cluster: u32) {
        if self.ensure(self.infos.len() + 1) {
            self.infos.push(hb_glyph_info_t { codepoint, cluster, ..Default::default() });
            if self.have_positions {
                self.positions.push(hb_glyph_position_t::default());
            }
        }
    }

    pub fn clear_positions(&mut self) {
        self.have_positions = true;
        self.positions.clear();
        self.positions.resize(self.infos.len(), hb_glyph_position_t::default());
    }

    fn clear(&mut self) {
        self.content_type = NO_CONTENT;
        self.properties = hb_segment_properties_t::default();
        self.successful = true;
        self.have_positions = false;
        self.infos.clear();
        self.positions.clear();
        self.context = [Vec::new(), Vec::new()];
        self.random_state = 1;
    }
}

/// A buffer that may be changed.
///
/// # Safety
///
/// `buffer` is alive, and nobody else uses it at the moment.
pub unsafe fn changing<'a>(buffer: *mut hb_buffer_t) -> Option<&'a mut hb_buffer_t> {
    // SAFETY: the caller's word; the empty buffer, which threads may share, is only read.
    unsafe { if (*buffer).header.is_immutable() { None } else { Some(&mut *buffer) } }
}

#[unsafe(no_mangle)]
pub extern "C" fn hb_buffer_create() -> *mut hb_buffer_t {
    given(hb_buffer_t::of(Header::new()))
}

#[unsafe(no_mangle)]
pub unsafe extern "C" fn hb_buffer_create_similar(source: *const hb_buffer_t) -> *mut hb_buffer_t {
    // SAFETY: HarfBuzz's terms: a buffer that is alive.
    let source = unsafe { &*source };
    let mut buffer = hb_buffer_t::of(Header::new());
    // SAFETY: the functions of the source are alive.
    buffer.unicode.set(unsafe { reference(source.unicode.get()) });
    buffer.set_as(source);
    given(buffer)
}

#[unsafe(no_mangle)]
pub unsafe extern "C" fn hb_buffer_reset(buffer: *mut hb_buffer_t) {
    // SAFETY: HarfBuzz's terms: a buffer that is alive, and that nobody else uses.
    let Some(buffer) = (unsafe { changing(buffer) }) else {
        return;
    };
    let fresh = hb_buffer_t::of(Header::new());
    buffer.set_as(&fresh);
    buffer.unicode.swap(&fresh.unicode);
    buffer.clear();
}

#[unsafe(no_mangle)]
pub unsafe extern "C" fn hb_buffer_clear_contents(buffer: *mut hb_buffer_t) {
    // SAFETY: HarfBuzz's terms: a buffer that is alive, and that nobody else uses.
    if let Some(buffer) = unsafe { changing(buffer) } {
        buffer.clear();
    }
}

#[unsafe(no_mangle)]
pub unsafe extern "C" fn hb_buffer_set_unicode_funcs(buffer: *mut hb_buffer_t, functions: *mut hb_unicode_funcs_t) {
    // SAFETY: HarfBuzz's terms: a buffer that is alive, and that nobody else uses.
    let Some(buffer) = (unsafe { changing(buffer) }) else {
        return;
    };
    let functions = if functions.is_null() { hb_unicode_funcs_get_default() } else { functions };
    // SAFETY: as above, of functions; the buffer gives up the reference that it had.
    unsafe { hb_unicode_funcs_destroy(buffer.unicode.replace(reference(functions))) }
}

#[unsafe(no_mangle)]
pub unsafe extern "C" fn hb_buffer_get_unicode_funcs(buffer: *const hb_buffer_t) -> *mut hb_unicode_funcs_t {
    // SAFETY: HarfBuzz's terms: a buffer that is alive.
    unsafe { &*buffer }.unicode.get()
}

#[unsafe(no_mangle)]
pub unsafe extern "C" fn hb_buffer_set_message_func(
    buffer: *mut hb_buffer_t,
    function: hb_buffer_message_func_t,
    data: *mut c_void,
    destroy: hb_destroy_func_t,
) {
    // SAFETY: HarfBuzz's terms: a buffer that is alive, and that nobody else uses.
    let Some(buffer) = (unsafe { changing(buffer) }) else {
        return release(data, destroy);
    };
    let listener = match function {
        Some(_) => Listener { function, data, destroy },
        None => {
            release(data, destroy);
            Listener { function, data: null_mut(), destroy: None }
        }
    };
    let before = std::mem::replace(&mut buffer.listener, listener);
    release(before.data, before.destroy);
}

/// The calls that set and read a plain property of a buffer.
macro_rules! property {
    ($field:ident: $type:ty, $set:ident, $get:ident) => {
        #[unsafe(no_mangle)]
        pub unsafe extern "C" fn $set(buffer: *mut hb_buffer_t, value: $type) {
            // SAFETY: HarfBuzz's terms: a buffer that is alive, and that nobody else uses.
            if let Some(buffer) = unsafe { changing(buffer) } {
                buffer.$field = value;
            }
        }

        #[unsafe(no_mangle)]
        pub unsafe extern "C" fn $get(buffer: *const hb_buffer_t) -> $type {
            // SAFETY: HarfBuzz's terms: a buffer that is alive.
            unsafe { &*buffer }.$field
        }
    };
}

property!(content_type: c_uint, hb_buffer_set_content_type, hb_buffer_get_content_type);
property!(flags: c_uint, hb_buffer_set_flags, hb_buffer_get_flags);
property!(cluster_level: c_uint, hb_buffer_set_cluster_level, hb_buffer_get_cluster_level);
property!(replacement: hb_codepoint_t, hb_buffer_set_replacement_codepoint, hb_buffer_get_replacement_codepoint);
property!(invisible: hb_codepoint_t, hb_buffer_set_invisible_glyph, hb_buffer_get_invisible_glyph);
property!(not_found: hb_codepoint_t, hb_buffer_set_not_found_glyph, hb_buffer_get_not_found_glyph);
property!(
    not_found_variation_selector: hb_codepoint_t, hb_buffer_set_not_found_variation_selector_glyph,
    hb_buffer_get_not_found_variation_selector_glyph
);
property!(random_state: c_uint, hb_buffer_set_random_state, hb_buffer_get_random_state);
