//! The items of a buffer as text, in HarfBuzz's two formats.

use crate::buffer::{GLYPH_FLAGS, GLYPHS, UNICODE, hb_buffer_t, hb_glyph_info_t};
use crate::font::hb_font_t;
use crate::object::Object;
use crate::types::{bytes, hb_tag_t, put, slice_mut, tag};
use std::ffi::{c_char, c_int, c_uint};
use std::ptr::null;

pub const TEXT: hb_tag_t = tag(b"TEXT");
pub const JSON: hb_tag_t = tag(b"JSON");

const NO_CLUSTERS: c_uint = 1;
const NO_POSITIONS: c_uint = 2;
const NO_GLYPH_NAMES: c_uint = 4;
const GLYPH_EXTENTS: c_uint = 8;
const SHOW_FLAGS: c_uint = 16;
const NO_ADVANCES: c_uint = 32;

/// How long the name of a glyph may be, with the zero behind it.
const NAME_SIZE: usize = 128;

/// What is written of the items of a buffer.
struct Writer<'a> {
    buffer: &'a hb_buffer_t,
    font: &'a hb_font_t,
    flags: c_uint,
    /// Where the pen is, where advances are not written.
    pen: (i32, i32),
}

impl Writer<'_> {
    fn has(&self, flag: c_uint) -> bool {
        self.flags & flag != 0
    }

    /// Where a glyph is drawn, from the pen where advances are not written.
    fn offset(&self, place: usize) -> (i32, i32) {
        let position = self.buffer.positions[place];
        (self.pen.0.wrapping_add(position.x_offset), self.pen.1.wrapping_add(position.y_offset))
    }

    fn advance_pen(&mut self, place: usize) {
        if self.has(NO_ADVANCES) && !self.has(NO_POSITIONS) {
            let position = self.buffer.positions[place];
            self.pen = (self.pen.0.wrapping_add(position.x_advance), self.pen.1.wrapping_add(position.y_advance));
        }
    }

    fn extents(&self, glyph: u32) -> crate::font::functions::hb_glyph_extents_t {
        self.font.glyph_extents(glyph).unwrap_or_default()
    }

    fn glyph_text(&mut self, place: usize, info: &hb_glyph_info_t) -> Vec<u8> {
        let glyph = info.codepoint;
        let mut text =
            if self.has(NO_GLYPH_NAMES) { glyph.to_string().into_bytes() } else { self.font.glyph_text(glyph, NAME_SIZE) };
        let mut write = |part: String| text.extend(part.into_bytes());
        if !self.has(NO_CLUSTERS) {
            write(format!("={}", info.cluster));
        }
        if !self.has(NO_POSITIONS) {
            let ((x, y), position) = (self.offset(place), self.buffer.positions[place]);
            if (x, y) != (0, 0) {
                write(format!("@{x},{y}"));
            }
            if !self.has(NO_ADVANCES) {
                write(format!("+{}", position.x_advance));
                if position.y_advance != 0 {
                    write(format!(",{}", position.y_advance));
                }
            }
        }
        if self.has(SHOW_FLAGS) && info.mask & GLYPH_FLAGS != 0 {
            write(format!("#{:X}", info.mask & GLYPH_FLAGS));
        }
        if self.has(GLYPH_EXTENTS) {
            let found = self.extents(glyph);
            write(format!("<{},{},{},{}>", found.x_bearing, found.y_bearing, found.width, found.height));
        }
        text
    }

    fn glyph_json(&mut self, place: usize, info: &hb_glyph_info_t) -> Vec<u8> {
        let glyph = info.codepoint;
        let mut text = b"{\"g\":".to_vec();
        if self.has(NO_GLYPH_NAMES) {
            text.extend(glyph.to_string().into_bytes());
        } else {
            text.push(b'"');
            for byte in self.font.glyph_text(glyph, NAME_SIZE) {
                if matches!(byte, b'"' | b'\\') {
                    text.push(b'\\');
                }
                text.push(byte);
            }
            text.push(b'"');
        }
        let mut write = |part: String| text.extend(part.into_bytes());
        if !self.has(NO_CLUSTERS) {
            write(format!(",\"cl\":{}", info.cluster));
        }
        if !self.has(NO_POSITIONS) {
            let ((x, y), position) = (self.offset(place), self.buffer.positions[place]);
            write(format!(",\"dx\":{x},\"dy\":{y}"));
            if !self.has(NO_ADVANCES) {
                write(format!(",\"ax\":{},\"ay\":{}", position.x_advance, position.y_advance));
            }
        }
        if self.has(SHOW_FLAGS) && info.mask & GLYPH_FLAGS != 0 {
            write(format!(",\"fl\":{}", info.mask & GLYPH_FLAGS));
        }
        if self.has(GLYPH_EXTENTS) {
            let found = self.extents(glyph);
            write(format!(",\"xb\":{},\"yb\":{}", found.x_bearing, found.y_bearing));
            write(format!(",\"w\":{},\"h\":{}", found.width, found.height));
        }
        text.push(b'}');
        text
    }

    fn character_text(&self, info: &hb_glyph_info_t) -> Vec<u8> {
        let cluster = if self.has(NO_CLUSTERS) { String::new() } else { format!("={}", info.cluster) };
        format!("U+{:04X}{cluster}", info.codepoint).into_bytes()
    }

    fn character_json(&self, info: &hb_glyph_info_t) -> Vec<u8> {
        let cluster = if self.has(NO_CLUSTERS) { String::new() } else { format!(",\"cl\":{}", info.cluster) };
        format!("{{\"u\":{}{cluster}}}", info.codepoint).into_bytes()
    }

    fn item(&mut self, place: usize, is_glyphs: bool, format: hb_tag_t) -> Vec<u8> {
        let info = self.buffer.infos[place];
        match (is_glyphs, format == JSON) {
            (true, true) => self.glyph_json(place, &info),
            (true, false) => self.glyph_text(place, &info),
            (false, true) => self.character_json(&info),
            (false, false) => self.character_text(&info),
        }
    }
}

/// The marks before the first item, between items, and behind the last.
fn marks(is_glyphs: bool, format: hb_tag_t) -> (u8, u8, u8) {
    match (is_glyphs, format == JSON) {
        (_, true) => (b'[', b',', b']'),
        (true, false) => (b'[', b'|', b']'),
        (false, false) => (b'<', b'|', b'>'),
    }
}

/// Writes items while there is room for them, and a zero behind each; the answer is how many.
fn write_items(
    writer: &mut Writer<'_>,
    range: std::ops::Range<usize>,
    (is_glyphs, format): (bool, hb_tag_t),
    room: &mut [u8],
    consumed: &mut usize,
) -> usize {
    let (open, between, close) = marks(is_glyphs, format);
    for place in range.clone() {
        let mut text = vec![if place == 0 { open } else { between }];
        text.extend(writer.item(place, is_glyphs, format));
        if place + 1 == range.end {
            text.push(close);
        }
        let left = &mut room[*consumed..];
        if left.len() <= text.len() {
            return place - range.start;
        }
        left[..text.len()].copy_from_slice(&text);
        left[text.len()] = 0;
        *consumed += text.len();
        if is_glyphs {
            writer.advance_pen(place);
        }
    }
    range.len()
}

/// What C asks to be written.
struct Request {
    start: c_uint,
    end: c_uint,
    room: *mut c_char,
    size: c_uint,
    consumed: *mut c_uint,
    font: *mut hb_font_t,
    format: hb_tag_t,
    flags: c_uint,
}

/// # Safety
///
/// `buffer` is alive, and the request has what it says.
unsafe fn serialize(buffer: *mut hb_buffer_t, is_glyphs: bool, request: &Request) -> c_uint {
    // SAFETY: the caller's word.
    let (buffer, room) = unsafe { (&*buffer, slice_mut(request.room.cast::<u8>(), request.size as usize)) };
    let font = if request.font.is_null() { hb_font_t::empty() } else { request.font };
    let length = buffer.infos.len();
    let end = (request.end as usize).min(length).max((request.start as usize).min(length));
    let start = (request.start as usize).min(end);
    if let Some(first) = room.first_mut() {
        *first = 0;
    }
    let mut consumed = 0;
    let no_positions = if buffer.have_positions { 0 } else { NO_POSITIONS };
    // SAFETY: the caller's word.
    let mut writer = Writer { buffer, font: unsafe { &*font }, flags: request.flags | no_positions, pen: (0, 0) };
    let written = if matches!(request.format, TEXT | JSON) {
        write_items(&mut writer, start..end, (is_glyphs, request.format), room, &mut consumed)
    } else {
        0
    };
    // SAFETY: the caller's word.
    unsafe { put(request.consumed, consumed as c_uint) };
    written as c_uint
}

/// What is written of a buffer without content.
///
/// # Safety
///
/// The request has what it says.
unsafe fn serialize_nothing(request: &Request) -> c_uint {
    // SAFETY: the caller's word.
    let room = unsafe { slice_mut(request.room.cast::<u8>(), request.size as usize) };
    let text: &[u8] = match request.format {
        JSON => b"[]\0",
        TEXT => b"!!\0",
        _ => &[],
    };
    if let Some(front) = room.get_mut(..3) {
        front[..text.len()].copy_from_slice(text);
        // SAFETY: the caller's word.
        unsafe { put(request.consumed, 2) };
    }
    0
}

#[unsafe(no_mangle)]
pub unsafe extern "C" fn hb_buffer_serialize_glyphs(
    buffer: *mut hb_buffer_t,
    start: c_uint,
    end: c_uint,
    room: *mut c_char,
    size: c_uint,
    consumed: *mut c_uint,
    font: *mut hb_font_t,
    format: hb_tag_t,
    flags: c_uint,
) -> c_uint {
    let request = Request { start, end, room, size, consumed, font, format, flags };
    // SAFETY: HarfBuzz's terms: a buffer and a font that are alive, and room for `size` bytes.
    unsafe { serialize(buffer, true, &request) }
}

#[unsafe(no_mangle)]
pub unsafe extern "C" fn hb_buffer_serialize_unicode(
    buffer: *mut hb_buffer_t,
    start: c_uint,
    end: c_uint,
    room: *mut c_char,
    size: c_uint,
    consumed: *mut c_uint,
    format: hb_tag_t,
    flags: c_uint,
) -> c_uint {
    let font = hb_font_t::empty();
    let request = Request { start, end, room, size, consumed, font, format, flags };
    // SAFETY: HarfBuzz's terms: a buffer that is alive, and room for `size` bytes.
    unsafe { serialize(buffer, false, &request) }
}

#[unsafe(no_mangle)]
pub unsafe extern "C" fn hb_buffer_serialize(
    buffer: *mut hb_buffer_t,
    start: c_uint,
    end: c_uint,
    room: *mut c_char,
    size: c_uint,
    consumed: *mut c_uint,
    font: *mut hb_font_t,
    format: hb_tag_t,
    flags: c_uint,
) -> c_uint {
    let request = Request { start, end, room, size, consumed, font, format, flags };
    // SAFETY: HarfBuzz's terms: a buffer and a font that are alive, and room for `size` bytes.
    unsafe {
        match (*buffer).content_type {
            GLYPHS => serialize(buffer, true, &request),
            UNICODE => serialize(buffer, false, &request),
            _ => serialize_nothing(&request),
        }
    }
}

/// The names of the formats, as C reads them.
struct Names([*const c_char; 3]);

// SAFETY: addresses of constants.
unsafe impl Sync for Names {}

static NAMES: Names = Names([c"text".as_ptr(), c"json".as_ptr(), null()]);

#[unsafe(no_mangle)]
pub extern "C" fn hb_buffer_serialize_list_formats() -> *const *const c_char {
    NAMES.0.as_ptr()
}

#[unsafe(no_mangle)]
pub unsafe extern "C" fn hb_buffer_serialize_format_from_string(text: *const c_char, length: c_int) -> hb_tag_t {
    // SAFETY: HarfBuzz's terms: a text of this length.
    let text = unsafe { bytes(text, length) };
    // The letters of a format are capitals, whatever the text's are.
    crate::common::tags::tag_of(text) & !0x2020_2020
}

#[unsafe(no_mangle)]
pub extern "C" fn hb_buffer_serialize_format_to_string(format: hb_tag_t) -> *const c_char {
    match format {
        TEXT => NAMES.0[0],
        JSON => NAMES.0[1],
        _ => null(),
    }
}
