//! `hb-ot-name.h`: the names of a font (OpenType specification, "name - Naming Table").

mod languages;

use crate::common::languages::{hb_language_matches, hb_language_t, language_of, text_of};
use crate::face::hb_face_t;
use crate::sfnt::{tail, u16_at};
use crate::types::{put, slice_mut};
use std::cmp::Ordering;
use std::ffi::{c_char, c_uint};

/// A name, by its number and its language.
#[repr(C)]
#[derive(Clone, Copy, Debug)]
pub struct hb_ot_name_entry_t {
    name_id: c_uint,
    /// The place of its record in the table.
    record: u32,
    language: hb_language_t,
}

// SAFETY: a language is the address of a text that is never freed nor changed.
unsafe impl Send for hb_ot_name_entry_t {}
// SAFETY: as above.
unsafe impl Sync for hb_ot_name_entry_t {}

/// The worst rank of a name whose encoding is read: the Macintosh's, as ASCII.
const ASCII: u32 = 10;

/// How good the encoding of a record is, the least the best; `None` where it is not read.
fn rank(record: &[u8]) -> Option<u32> {
    let ranks = [(3, 10), (0, 6), (0, 4), (3, 1), (0, 3), (0, 2), (0, 1), (0, 0), (3, 0)];
    match (u16_at(record, 0), u16_at(record, 2)) {
        (1, 0) => Some(ASCII),
        encoding => ranks.iter().position(|other| *other == encoding).map(|place| place as u32),
    }
}

fn language(record: &[u8]) -> hb_language_t {
    let number = u16_at(record, 4);
    let text = match u16_at(record, 0) {
        3 => languages::of_windows(number),
        1 => languages::of_macintosh(number),
        _ => "",
    };
    language_of(text.as_bytes())
}

fn record(table: &[u8], place: usize) -> &[u8] {
    tail(table, 6 + 12 * place)
}

/// The names of a table, in the order of their numbers and languages, each in its best encoding.
pub fn entries(table: &[u8]) -> Vec<hb_ot_name_entry_t> {
    let count = usize::from(u16_at(table, 2)).min(tail(table, 6).len() / 12);
    let entry = |place: usize| {
        let record = record(table, place);
        let name_id = u16_at(record, 6).into();
        Some((rank(record)?, hb_ot_name_entry_t { name_id, record: place as u32, language: language(record) }))
    };
    let mut found: Vec<_> = (0..count).filter_map(entry).filter(|(_, entry)| !entry.language.is_null()).collect();
    found.sort_by_key(|(rank, entry)| (entry.name_id, text_of(entry.language), *rank, entry.record));
    found.dedup_by_key(|(_, entry)| (entry.name_id, entry.language));
    found.into_iter().map(|(_, entry)| entry).collect()
}

/// The characters of a name.
fn characters(table: &[u8], place: usize) -> Vec<char> {
    let record = record(table, place);
    let start = usize::from(u16_at(table, 4)) + usize::from(u16_at(record, 10));
    let bytes = tail(table, start);
    let bytes = &bytes[..bytes.len().min(u16_at(record, 8).into())];
    if rank(record) == Some(ASCII) {
        let ascii = |byte: &u8| if byte.is_ascii() { char::from(*byte) } else { char::REPLACEMENT_CHARACTER };
        return bytes.iter().map(ascii).collect();
    }
    let units = bytes.chunks_exact(2).map(|pair| u16::from_be_bytes([pair[0], pair[1]]));
    char::decode_utf16(units).map(|unit| unit.unwrap_or(char::REPLACEMENT_CHARACTER)).collect()
}

/// The characters of the name of this number in a language, or in the language that it is a variant of.
fn name(face: &hb_face_t, name_id: c_uint, language: hb_language_t) -> Vec<char> {
    let language = if language.is_null() { language_of(b"en") } else { language };
    let wanted = |entry: &hb_ot_name_entry_t| {
        let by_language = text_of(entry.language).cmp(text_of(language));
        let fits = hb_language_matches(entry.language, language) != 0;
        entry.name_id.cmp(&name_id).then(if fits { Ordering::Equal } else { by_language })
    };
    match face.name_entries().binary_search_by(wanted) {
        Ok(place) => characters(face.table(b"name"), face.name_entries()[place].record as usize),
        Err(_) => Vec::new(),
    }
}

/// Writes characters into the room that there is, each whole, with a zero behind them; the answer is the length of all.
///
/// # Safety
///
/// `size` is null, or says how many units `room` has.
unsafe fn put_characters<T: Copy + Default>(
    characters: &[char],
    size: *mut c_uint,
    room: *mut T,
    encode: impl Fn(char) -> Vec<T>,
) -> c_uint {
    let units: Vec<Vec<T>> = characters.iter().map(|character| encode(*character)).collect();
    // SAFETY: the caller's word.
    if let Some(length) = unsafe { size.as_ref() }.filter(|length| **length > 0) {
        // SAFETY: the caller's word.
        let places = unsafe { slice_mut(room, *length as usize) };
        let mut written = 0;
        for character in &units {
            if written + character.len() >= places.len() {
                break;
            }
            places[written..written + character.len()].copy_from_slice(character);
            written += character.len();
        }
        if let Some(end) = places.get_mut(written) {
            *end = T::default();
        }
        // SAFETY: the caller's word.
        unsafe { put(size, written as c_uint) };
    }
    units.iter().map(Vec::len).sum::<usize>() as c_uint
}

#[unsafe(no_mangle)]
pub unsafe extern "C" fn hb_ot_name_list_names(face: *mut hb_face_t, count: *mut c_uint) -> *const hb_ot_name_entry_t {
    // SAFETY: HarfBuzz's terms: a face that is alive, and a place or null. The names stay as long as the face.
    unsafe {
        let entries = (*face).name_entries();
        put(count, entries.len() as c_uint);
        entries.as_ptr()
    }
}

/// The calls that write a name in an encoding.
macro_rules! get {
    ($call:ident, $unit:ty, $encode:expr) => {
        #[unsafe(no_mangle)]
        pub unsafe extern "C" fn $call(
            face: *mut hb_face_t,
            name_id: c_uint,
            language: hb_language_t,
            size: *mut c_uint,
            room: *mut $unit,
        ) -> c_uint {
            // SAFETY: HarfBuzz's terms: a face that is alive, and room for `size` units, or null.
            unsafe { put_characters(&name(&*face, name_id, language), size, room, $encode) }
        }
    };
}

get!(hb_ot_name_get_utf8, c_char, |character: char| {
    character.encode_utf8(&mut [0; 4]).bytes().map(u8::cast_signed).collect()
});
get!(hb_ot_name_get_utf16, u16, |character: char| character.encode_utf16(&mut [0; 2]).to_vec());
get!(hb_ot_name_get_utf32, u32, |character: char| vec![character.into()]);
