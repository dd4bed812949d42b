//! The items of a buffer from text, in the formats in which HarfBuzz writes them.

use crate::buffer::serialize::{JSON, TEXT};
use crate::buffer::{GLYPHS, UNICODE, changing, hb_buffer_t, hb_glyph_info_t, hb_glyph_position_t};
use crate::font::hb_font_t;
use crate::object::Object;
use crate::types::{bytes, hb_bool_t, hb_tag_t, put};
use std::ffi::{c_char, c_int};

/// A text that is read from its front.
struct Reader<'a> {
    text: &'a [u8],
    place: usize,
}

/// A character, or a glyph with its position.
type Item = (hb_glyph_info_t, hb_glyph_position_t);

impl<'a> Reader<'a> {
    fn next(&self) -> Option<u8> {
        self.text.get(self.place).copied()
    }

    fn skip_spaces(&mut self) {
        while matches!(self.next(), Some(b' ' | b'\t'..=b'\r')) {
            self.place += 1;
        }
    }

    fn take(&mut self, byte: u8) -> Option<()> {
        if self.next() == Some(byte) {
            self.place += 1;
            Some(())
        } else {
            None
        }
    }

    /// A mark with spaces on both sides.
    fn take_spaced(&mut self, byte: u8) -> Option<()> {
        self.skip_spaces();
        self.take(byte)?;
        self.skip_spaces();
        Some(())
    }

    fn take_while(&mut self, mut test: impl FnMut(u8) -> bool) -> &'a [u8] {
        let start = self.place;
        while self.next().is_some_and(&mut test) {
            self.place += 1;
        }
        &self.text[start..self.place]
    }

    /// A number without a zero before it.
    fn digits(&mut self) -> Option<&'a str> {
        if self.take(b'0').is_some() {
            return Some("0");
        }
        let digits = self.take_while(|byte| byte.is_ascii_digit());
        std::str::from_utf8(digits).ok().filter(|digits| !digits.is_empty())
    }

    fn unsigned(&mut self) -> Option<u32> {
        self.digits()?.parse().ok()
    }

    fn signed(&mut self) -> Option<i32> {
        let is_negative = self.take(b'-').is_some();
        let number: i64 = self.digits()?.parse().ok()?;
        i32::try_from(if is_negative { -number } else { number }).ok()
    }

    fn glyph_text_item(&mut self, font: &hb_font_t) -> Option<Item> {
        let mut escaped = false;
        let name = self.take_while(|byte| {
            let is_part = escaped || !matches!(byte, b']' | b'=' | b'@' | b'+' | b',' | b'#' | b'|');
            escaped = !escaped && byte == b'\\';
            is_part
        });
        let (mut info, mut position) = Item::default();
        info.codepoint = font.glyph_of_text(name)?;
        if self.take(b'=').is_some() {
            info.cluster = self.unsigned()?;
        }
        if self.take(b'@').is_some() {
            position.x_offset = self.signed()?;
            self.take(b',')?;
            position.y_offset = self.signed()?;
        }
        if self.take(b'+').is_some() {
            position.x_advance = self.signed()?;
            if self.take(b',').is_some() {
                position.y_advance = self.signed()?;
            }
        }
        if self.take(b'#').is_some() {
            info.mask = self.unsigned()?;
        }
        Some((info, position))
    }

    fn character_text_item(&mut self) -> Option<Item> {
        let (mut info, position) = Item::default();
        if !matches!(self.next(), Some(b'U' | b'u')) {
            return None;
        }
        self.place += 1;
        let _ = self.take(b'+');
        let digits = std::str::from_utf8(self.take_while(|byte| byte.is_ascii_hexdigit())).ok()?;
        info.codepoint = u32::from_str_radix(digits, 16).ok()?;
        if self.take(b'=').is_some() {
            info.cluster = self.unsigned()?;
        }
        Some((info, position))
    }

    /// A string of JSON, without its quotes.
    fn string(&mut self) -> Option<&'a [u8]> {
        self.take(b'"')?;
        let mut escaped = false;
        let text = self.take_while(|byte| {
            let is_part = escaped || byte != b'"';
            escaped = !escaped && byte == b'\\';
            is_part
        });
        self.take(b'"')?;
        Some(text)
    }

    fn json_element(&mut self, font: &hb_font_t, item: &mut Item, content: &mut u32) -> Option<()> {
        let key = self.string()?;
        self.take_spaced(b':')?;
        let (info, position) = item;
        match key {
            b"g" | b"u" => {
                *content = if key == b"g" { GLYPHS } else { UNICODE };
                info.codepoint = match self.next()? {
                    b'"' if key == b"g" => font.glyph_of_text(self.string()?)?,
                    _ => self.unsigned()?,
                };
            }
            b"cl" => info.cluster = self.unsigned()?,
            b"dx" => position.x_offset = self.signed()?,
            b"dy" => position.y_offset = self.signed()?,
            b"ax" => position.x_advance = self.signed()?,
            b"ay" => position.y_advance = self.signed()?,
            b"fl" => info.mask = self.unsigned()?,
            _ => return None,
        }
        Some(())
    }

    fn json_item(&mut self, font: &hb_font_t, content: &mut u32) -> Option<Item> {
        let mut item = Item::default();
        self.take(b'{')?;
        self.skip_spaces();
        loop {
            self.json_element(font, &mut item, content)?;
            self.skip_spaces();
            if self.take(b'}').is_some() {
                return Some(item);
            }
            self.take_spaced(b',')?;
        }
    }
}

/// Adds an item; false where there is no room.
fn add(buffer: &mut hb_buffer_t, (info, position): Item) -> bool {
    buffer.push(info.codepoint, info.cluster);
    if !buffer.successful {
        return false;
    }
    if let Some(last) = buffer.infos.last_mut() {
        last.mask = info.mask;
    }
    if buffer.have_positions
        && let Some(last) = buffer.positions.last_mut()
    {
        *last = position;
    }
    true
}

/// Reads items between bars, up to a mark that closes them. The answer is where the reader stopped, and whether all was read and more
/// may follow.
fn read_text(
    buffer: &mut hb_buffer_t,
    text: &[u8],
    (open, close): (u8, u8),
    mut item: impl FnMut(&mut Reader<'_>) -> Option<Item>,
) -> (usize, bool) {
    let mut reader = Reader { text, place: 0 };
    reader.skip_spaces();
    let _ = reader.take(if buffer.infos.is_empty() { open } else { b'|' });
    let rest = &text[reader.place..];
    let closed = rest.iter().position(|byte| *byte == close).map(|place| reader.place + place);
    let cut = closed.or_else(|| rest.iter().rposition(|byte| *byte == b'|').map(|place| reader.place + place));
    let end = cut.unwrap_or(reader.place);
    let mut reader = Reader { text: &text[..end], place: reader.place };
    let mut is_whole = true;
    reader.skip_spaces();
    while is_whole {
        is_whole = item(&mut reader).is_some_and(|item| add(buffer, item));
        reader.skip_spaces();
        if !is_whole || reader.take(b'|').is_none() {
            break;
        }
        reader.skip_spaces();
    }
    let is_whole = is_whole && reader.place == end;
    match closed {
        Some(closed) if is_whole => (closed + 1, true),
        _ => (reader.place, is_whole),
    }
}

/// Reads items of JSON. The answer is where the reader stopped, and whether all was read and more may follow.
fn read_json(buffer: &mut hb_buffer_t, text: &[u8], font: &hb_font_t, content: u32) -> (usize, bool) {
    let mut reader = Reader { text, place: 0 };
    reader.skip_spaces();
    let _ = reader.take(if buffer.infos.is_empty() { b'[' } else { b',' });
    reader.skip_spaces();
    let mut end = reader.place;
    loop {
        let mut found = content;
        match reader.json_item(font, &mut found) {
            Some(item) if found == content && add(buffer, item) => end = reader.place,
            _ => return (end, false),
        }
        reader.skip_spaces();
        if reader.take(b']').is_some() {
            return (reader.place, false);
        }
        if reader.take(b',').is_none() {
            return (end, false);
        }
        if reader.next().is_none() {
            return (reader.place, true);
        }
        reader.skip_spaces();
    }
}

/// What C passes to be read.
struct Request {
    text: *const c_char,
    length: c_int,
    end: *mut *const c_char,
    format: hb_tag_t,
}

/// # Safety
///
/// `buffer` is alive, and nobody else uses it; the font is alive or null, and the request has what it says.
unsafe fn deserialize(buffer: *mut hb_buffer_t, request: &Request, font: *mut hb_font_t, content: u32) -> hb_bool_t {
    // SAFETY: the caller's word.
    unsafe { put(request.end, request.text) };
    // SAFETY: the caller's word.
    let Some(buffer) = (unsafe { changing(buffer) }) else {
        return 0;
    };
    // SAFETY: the caller's word.
    let text = unsafe { bytes(request.text, request.length) };
    if text.is_empty() {
        return 0;
    }
    buffer.content_type = content;
    let font = if font.is_null() { hb_font_t::empty() } else { font };
    // SAFETY: the caller's word.
    let font = unsafe { &*font };
    if (content == GLYPHS || request.format == JSON) && !buffer.have_positions {
        buffer.clear_positions();
    }
    let (end, is_whole) = match (request.format, content) {
        (JSON, _) => read_json(buffer, text, font, content),
        (TEXT, GLYPHS) => read_text(buffer, text, (b'[', b']'), |reader| reader.glyph_text_item(font)),
        (TEXT, _) => read_text(buffer, text, (b'<', b'>'), |reader| reader.character_text_item()),
        _ => (0, false),
    };
    // SAFETY: `end` is at most the length of the text.
    unsafe { put(request.end, request.text.add(end)) };
    is_whole.into()
}

#[unsafe(no_mangle)]
pub unsafe extern "C" fn hb_buffer_deserialize_glyphs(
    buffer: *mut hb_buffer_t,
    text: *const c_char,
    length: c_int,
    end: *mut *const c_char,
    font: *mut hb_font_t,
    format: hb_tag_t,
) -> hb_bool_t {
    // SAFETY: HarfBuzz's terms: a buffer that nobody else uses, a text of this length, and a font that is alive, or null.
    unsafe { deserialize(buffer, &Request { text, length, end, format }, font, GLYPHS) }
}

#[unsafe(no_mangle)]
pub unsafe extern "C" fn hb_buffer_deserialize_unicode(
    buffer: *mut hb_buffer_t,
    text: *const c_char,
    length: c_int,
    end: *mut *const c_char,
    format: hb_tag_t,
) -> hb_bool_t {
    // SAFETY: HarfBuzz's terms: a buffer that nobody else uses, and a text of this length.
    unsafe { deserialize(buffer, &Request { text, length, end, format }, hb_font_t::empty(), UNICODE) }
}
