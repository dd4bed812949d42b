//! `hb-map.h`: maps from numbers to numbers.

use crate::object::{Empty, Header, Object, given, object_calls};
use crate::set::{INVALID, hb_set_t};
use crate::types::{hb_bool_t, hb_codepoint_t};
use std::collections::HashMap;
use std::ffi::{c_int, c_uint};
use std::hash::{BuildHasher, BuildHasherDefault, DefaultHasher};

pub struct hb_map_t {
    header: Header,
    /// The place of each key in `entries`.
    places: HashMap<u32, usize>,
    /// The keys with their values, in the order in which they came; those that were taken out leave a gap.
    entries: Vec<Option<(u32, u32)>>,
}

impl Object for hb_map_t {
    fn header(&self) -> &Header {
        &self.header
    }

    fn empty() -> *mut Self {
        static EMPTY: Empty<hb_map_t> = Empty::new();
        EMPTY.get(|| hb_map_t { header: Header::of_empty(), places: HashMap::new(), entries: Vec::new() })
    }
}

object_calls!(hb_map_t: hb_map_get_empty hb_map_reference hb_map_destroy hb_map_set_user_data hb_map_get_user_data);

impl hb_map_t {
    fn get(&self, key: u32) -> Option<u32> {
        let place = *self.places.get(&key)?;
        self.entries[place].map(|(_, value)| value)
    }

    pub fn set(&mut self, key: u32, value: u32) {
        if key == INVALID {
            return;
        }
        match self.places.get(&key) {
            Some(&place) => self.entries[place] = Some((key, value)),
            None => {
                self.places.insert(key, self.entries.len());
                self.entries.push(Some((key, value)));
            }
        }
    }

    fn remove(&mut self, key: u32) {
        if let Some(place) = self.places.remove(&key) {
            self.entries[place] = None;
        }
    }

    fn clear(&mut self) {
        self.places.clear();
        self.entries.clear();
    }

    fn pairs(&self) -> impl Iterator<Item = (u32, u32)> {
        self.entries.iter().flatten().copied()
    }
}

/// A map that may be changed.
///
/// # Safety
///
/// `map` is alive, and nobody else uses it at the moment.
unsafe fn changing<'a>(map: *mut hb_map_t) -> Option<&'a mut hb_map_t> {
    // SAFETY: the caller's word; the empty map, which threads may share, is only read.
    unsafe { if (*map).header.is_immutable() { None } else { Some(&mut *map) } }
}

#[unsafe(no_mangle)]
pub extern "C" fn hb_map_create() -> *mut hb_map_t {
    given(hb_map_t { header: Header::new(), places: HashMap::new(), entries: Vec::new() })
}

#[unsafe(no_mangle)]
pub unsafe extern "C" fn hb_map_allocation_successful(map: *const hb_map_t) -> hb_bool_t {
    // SAFETY: HarfBuzz's terms: a map that is alive.
    (!unsafe { &*map }.header.is_immutable()).into()
}

#[unsafe(no_mangle)]
pub unsafe extern "C" fn hb_map_copy(map: *const hb_map_t) -> *mut hb_map_t {
    let copy = hb_map_create();
    // SAFETY: HarfBuzz's terms: a map that is alive; the copy was just made.
    unsafe { hb_map_update(copy, map) };
    copy
}

/// The calls that ask a map.
macro_rules! ask {
    ($($call:ident($map:ident $(, $name:ident: $type:ty)*) -> $answer:ty $body:block)*) => {
        $(
            #[unsafe(no_mangle)]
            pub unsafe extern "C" fn $call(map: *const hb_map_t $(, $name: $type)*) -> $answer {
                // SAFETY: HarfBuzz's terms: a map that is alive, and the places that the header names.
                unsafe {
                    let $map = &*map;
                    $body
                }
            }
        )*
    };
}

/// The calls that change a map.
macro_rules! change {
    ($($call:ident($map:ident $(, $name:ident: $type:ty)*) $body:block)*) => {
        $(
            #[unsafe(no_mangle)]
            pub unsafe extern "C" fn $call(map: *mut hb_map_t $(, $name: $type)*) {
                // SAFETY: HarfBuzz's terms: a map that nobody else uses, and what the header says of the other arguments.
                unsafe {
                    if let Some($map) = changing(map) $body
                }
            }
        )*
    };
}

ask! {
    hb_map_is_empty(map) -> hb_bool_t { map.places.is_empty().into() }
    hb_map_get_population(map) -> c_uint { map.places.len() as c_uint }
    hb_map_is_equal(map, other: *const hb_map_t) -> hb_bool_t {
        let other = &*other;
        let is_same = map.places.len() == other.places.len();
        (is_same && map.pairs().all(|(key, value)| other.get(key) == Some(value))).into()
    }
    hb_map_hash(map) -> c_uint {
        // The order of the keys does not count.
        let hashes = BuildHasherDefault::<DefaultHasher>::default();
        map.pairs().fold(0u64, |sum, pair| sum.wrapping_add(hashes.hash_one(pair))) as c_uint
    }
    hb_map_get(map, key: hb_codepoint_t) -> hb_codepoint_t { map.get(key).unwrap_or(INVALID) }
    hb_map_has(map, key: hb_codepoint_t) -> hb_bool_t { map.places.contains_key(&key).into() }
    hb_map_next(map, place: *mut c_int, key: *mut hb_codepoint_t, value: *mut hb_codepoint_t) -> hb_bool_t {
        let start = (*place).saturating_add(1).max(0) as usize;
        let rest = map.entries.get(start..).unwrap_or(&[]);
        match rest.iter().position(Option::is_some) {
            Some(found) => {
                *place = (start + found) as c_int;
                (*key, *value) = rest[found].unwrap_or((INVALID, INVALID));
                1
            }
            None => {
                *place = -1;
                (*key, *value) = (INVALID, INVALID);
                0
            }
        }
    }
    hb_map_keys(map, keys: *mut hb_set_t) -> () { map.pairs().for_each(|(key, _)| (*keys).add(key)); }
    hb_map_values(map, values: *mut hb_set_t) -> () { map.pairs().for_each(|(_, value)| (*values).add(value)); }
}

change! {
    hb_map_clear(map) { map.clear(); }
    hb_map_set(map, key: hb_codepoint_t, value: hb_codepoint_t) { map.set(key, value); }
    hb_map_del(map, key: hb_codepoint_t) { map.remove(key); }
    hb_map_update(map, other: *const hb_map_t) {
        if !std::ptr::eq(map, other) {
            (*other).pairs().for_each(|(key, value)| map.set(key, value));
        }
    }
}
