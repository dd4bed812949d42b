//! Adding text in the encodings of Unicode.

use crate::buffer::{CONTEXT_LENGTH, UNICODE, changing, hb_buffer_t};
use crate::types::hb_codepoint_t;
use std::ffi::{c_char, c_int, c_uint};

/// An encoding: how the characters of a text are read from its units, forward and backward.
trait Encoding {
    type Unit: Copy + Default + PartialEq;

    /// The character at the front, and how many units it has; `None` where it is broken, which has one unit.
    fn front(text: &[Self::Unit]) -> (Option<hb_codepoint_t>, usize);

    /// The character at the end, and how many units it has.
    fn back(text: &[Self::Unit]) -> (Option<hb_codepoint_t>, usize);
}

struct Utf8;
struct Utf16;
struct Utf32;
struct Latin1;
/// Numbers that stand for themselves, whatever they are.
struct Codepoints;

impl Encoding for Utf8 {
    type Unit = u8;

    fn front(text: &[u8]) -> (Option<hb_codepoint_t>, usize) {
        let length = match text[0] {
            ..0x80 => 1,
            0xC2..=0xDF => 2,
            0xE0..=0xEF => 3,
            0xF0..=0xF4 => 4,
            _ => return (None, 1),
        };
        let whole = text.get(..length).and_then(|bytes| std::str::from_utf8(bytes).ok());
        match whole.and_then(|text| text.chars().next()) {
            Some(character) => (Some(character.into()), length),
            None => (None, 1),
        }
    }

    fn back(text: &[u8]) -> (Option<hb_codepoint_t>, usize) {
        let most = text.len().min(4);
        let length = (1..most).find(|length| text[text.len() - length] & 0xC0 != 0x80).unwrap_or(most);
        match Self::front(&text[text.len() - length..]) {
            (character, read) if read == length => (character, length),
            _ => (None, 1),
        }
    }
}

impl Encoding for Utf16 {
    type Unit = u16;

    fn front(text: &[u16]) -> (Option<hb_codepoint_t>, usize) {
        match (text[0], text.get(1)) {
            (high @ 0xD800..=0xDBFF, Some(low @ 0xDC00..=0xDFFF)) => (Some(pair(high, *low)), 2),
            (0xD800..=0xDFFF, _) => (None, 1),
            (unit, _) => (Some(unit.into()), 1),
        }
    }

    fn back(text: &[u16]) -> (Option<hb_codepoint_t>, usize) {
        match text {
            [.., high @ 0xD800..=0xDBFF, low @ 0xDC00..=0xDFFF] => (Some(pair(*high, *low)), 2),
            [.., 0xD800..=0xDFFF] | [] => (None, 1),
            [.., unit] => (Some((*unit).into()), 1),
        }
    }
}

/// The character of two surrogates.
fn pair(high: u16, low: u16) -> hb_codepoint_t {
    0x10000 + ((u32::from(high) - 0xD800) << 10) + (u32::from(low) - 0xDC00)
}

/// An encoding in which each unit is a character.
macro_rules! by_unit {
    ($encoding:ty, $unit:ty, $character:expr) => {
        impl Encoding for $encoding {
            type Unit = $unit;

            fn front(text: &[$unit]) -> (Option<hb_codepoint_t>, usize) {
                ($character(text[0]), 1)
            }

            fn back(text: &[$unit]) -> (Option<hb_codepoint_t>, usize) {
                ($character(text[text.len() - 1]), 1)
            }
        }
    };
}

by_unit!(Utf32, u32, |unit| char::from_u32(unit).map(u32::from));
by_unit!(Latin1, u8, |unit| Some(u32::from(unit)));
by_unit!(Codepoints, u32, Some);

/// The text with the place of an item in it; `None` where the numbers do not fit each other.
///
/// # Safety
///
/// `text` has so many units, or a zero behind it where the length is negative.
unsafe fn text_and_item<'a, T: Copy + Default + PartialEq>(
    text: *const T,
    length: c_int,
    offset: c_uint,
    item: c_int,
) -> Option<(&'a [T], usize, usize)> {
    let length = match usize::try_from(length) {
        Ok(length) => length,
        // SAFETY: the caller's word.
        Err(_) => (0..).find(|place| unsafe { *text.add(*place) } == T::default())?,
    };
    let offset = offset as usize;
    let item = match usize::try_from(item) {
        Ok(item) => item,
        Err(_) => length.checked_sub(offset)?,
    };
    if item > (c_int::MAX / 8) as usize {
        return None;
    }
    // SAFETY: the caller's word.
    let text = unsafe { crate::types::slice(text, length.max(offset + item)) };
    Some((text, offset, length)).map(|(text, offset, _)| (text, offset, item))
}

/// Adds an item of a text, with what stands beside it.
///
/// # Safety
///
/// `buffer` is alive, and nobody else uses it; `text` has so many units.
unsafe fn add<E: Encoding>(buffer: *mut hb_buffer_t, text: *const E::Unit, length: c_int, offset: c_uint, item: c_int) {
    // SAFETY: the caller's word.
    let Some(buffer) = (unsafe { changing(buffer) }) else {
        return;
    };
    // SAFETY: the caller's word.
    let Some((text, offset, item)) = (unsafe { text_and_item(text, length, offset, item) }) else {
        return;
    };
    if !buffer.ensure(buffer.infos.len() + item * size_of::<E::Unit>() / 4) {
        return;
    }
    let replacement = buffer.replacement;
    if buffer.infos.is_empty() && offset > 0 {
        buffer.context[0].clear();
        let mut before = &text[..offset];
        while !before.is_empty() && buffer.context[0].len() < CONTEXT_LENGTH {
            let (character, read) = E::back(before);
            buffer.context[0].push(character.unwrap_or(replacement));
            before = &before[..before.len() - read];
        }
    }
    let (mut place, end) = (offset, offset + item);
    while place < end {
        let (character, read) = E::front(&text[place..end]);
        buffer.push(character.unwrap_or(replacement), place as u32);
        place += read;
    }
    buffer.context[1].clear();
    while place < text.len() && buffer.context[1].len() < CONTEXT_LENGTH {
        let (character, read) = E::front(&text[place..]);
        buffer.context[1].push(character.unwrap_or(replacement));
        place += read;
    }
    buffer.content_type = UNICODE;
}

#[unsafe(no_mangle)]
pub unsafe extern "C" fn hb_buffer_add(buffer: *mut hb_buffer_t, codepoint: hb_codepoint_t, cluster: c_uint) {
    // SAFETY: HarfBuzz's terms: a buffer that is alive, and that nobody else uses.
    if let Some(buffer) = unsafe { changing(buffer) } {
        buffer.push(codepoint, cluster);
        buffer.context[1].clear();
    }
}

/// A call that adds text in an encoding.
macro_rules! add {
    ($call:ident, $encoding:ty, $unit:ty) => {
        #[unsafe(no_mangle)]
        pub unsafe extern "C" fn $call(buffer: *mut hb_buffer_t, text: *const $unit, length: c_int, offset: c_uint, item: c_int) {
            // SAFETY: HarfBuzz's terms: a buffer that is alive, and that nobody else uses, and a text of this length.
            unsafe { add::<$encoding>(buffer, text.cast(), length, offset, item) }
        }
    };
}

add!(hb_buffer_add_utf8, Utf8, c_char);
add!(hb_buffer_add_utf16, Utf16, u16);
add!(hb_buffer_add_utf32, Utf32, u32);
add!(hb_buffer_add_latin1, Latin1, u8);
add!(hb_buffer_add_codepoints, Codepoints, hb_codepoint_t);
