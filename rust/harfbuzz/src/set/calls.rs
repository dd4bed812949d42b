//! The calls of sets.

use crate::object::{Object, given};
use crate::set::{INVALID, hb_set_t};
use crate::types::{hb_bool_t, hb_codepoint_t, slice};
use std::ffi::c_uint;
use std::hash::{Hash, Hasher};

/// A set that may be changed.
///
/// # Safety
///
/// `set` is alive, and nobody else uses it at the moment.
unsafe fn changing<'a>(set: *mut hb_set_t) -> Option<&'a mut hb_set_t> {
    // SAFETY: the caller's word; the empty set, which threads may share, is only read.
    unsafe { if (*set).header().is_immutable() { None } else { Some(&mut *set) } }
}

#[unsafe(no_mangle)]
pub extern "C" fn hb_set_create() -> *mut hb_set_t {
    given(hb_set_t::new())
}

#[unsafe(no_mangle)]
pub unsafe extern "C" fn hb_set_allocation_successful(set: *const hb_set_t) -> hb_bool_t {
    // SAFETY: HarfBuzz's terms: a set that is alive.
    (!unsafe { &*set }.header().is_immutable()).into()
}

#[unsafe(no_mangle)]
pub unsafe extern "C" fn hb_set_copy(set: *const hb_set_t) -> *mut hb_set_t {
    // SAFETY: HarfBuzz's terms: a set that is alive.
    let set = unsafe { &*set };
    let mut copy = hb_set_t::new();
    copy.ranges = set.ranges.clone();
    copy.is_inverted = set.is_inverted;
    given(copy)
}

/// The calls that ask a set.
macro_rules! ask {
    ($($call:ident($set:ident $(, $name:ident: $type:ty)*) -> $answer:ty $body:block)*) => {
        $(
            #[unsafe(no_mangle)]
            pub unsafe extern "C" fn $call(set: *const hb_set_t $(, $name: $type)*) -> $answer {
                // SAFETY: HarfBuzz's terms: sets that are alive, and the places that the header names.
                unsafe {
                    let $set = &*set;
                    $body
                }
            }
        )*
    };
}

/// The calls that change a set.
macro_rules! change {
    ($($call:ident($set:ident $(, $name:ident: $type:ty)*) $body:block)*) => {
        $(
            #[unsafe(no_mangle)]
            pub unsafe extern "C" fn $call(set: *mut hb_set_t $(, $name: $type)*) {
                // SAFETY: HarfBuzz's terms: a set that nobody else uses, and what the header says of the other arguments.
                unsafe {
                    if let Some($set) = changing(set) $body
                }
            }
        )*
    };
}

ask! {
    hb_set_is_empty(set) -> hb_bool_t { set.ranges.is_empty().into() }
    hb_set_is_inverted(set) -> hb_bool_t { set.is_inverted.into() }
    hb_set_has(set, number: hb_codepoint_t) -> hb_bool_t { set.has(number).into() }
    hb_set_is_equal(set, other: *const hb_set_t) -> hb_bool_t { (set.ranges == (*other).ranges).into() }
    hb_set_hash(set) -> c_uint {
        let mut hasher = std::hash::DefaultHasher::new();
        set.ranges.hash(&mut hasher);
        hasher.finish() as c_uint
    }
    hb_set_is_subset(set, larger: *const hb_set_t) -> hb_bool_t {
        let larger = &*larger;
        set.ranges.iter().all(|(first, last)| larger.range_of(*first).is_some_and(|(_, end)| *last <= end)).into()
    }
    hb_set_get_population(set) -> c_uint { set.population() }
    hb_set_get_min(set) -> hb_codepoint_t { set.first().unwrap_or(INVALID) }
    hb_set_get_max(set) -> hb_codepoint_t { set.last().unwrap_or(INVALID) }
    hb_set_next(set, number: *mut hb_codepoint_t) -> hb_bool_t {
        let found = set.next_range(*number);
        *number = found.map_or(INVALID, |(first, _)| first);
        found.is_some().into()
    }
    hb_set_previous(set, number: *mut hb_codepoint_t) -> hb_bool_t {
        let found = set.previous_range(*number);
        *number = found.map_or(INVALID, |(_, last)| last);
        found.is_some().into()
    }
    hb_set_next_range(set, first: *mut hb_codepoint_t, last: *mut hb_codepoint_t) -> hb_bool_t {
        let found = set.next_range(*last);
        (*first, *last) = found.unwrap_or((INVALID, INVALID));
        found.is_some().into()
    }
    hb_set_previous_range(set, first: *mut hb_codepoint_t, last: *mut hb_codepoint_t) -> hb_bool_t {
        let found = set.previous_range(*first);
        (*first, *last) = found.unwrap_or((INVALID, INVALID));
        found.is_some().into()
    }
    hb_set_next_many(set, number: hb_codepoint_t, room: *mut hb_codepoint_t, size: c_uint) -> c_uint {
        let mut written = 0;
        let mut number = number;
        while written < size && let Some((first, last)) = set.next_range(number) {
            for found in (first..=last).take((size - written) as usize) {
                *room.add(written as usize) = found;
                written += 1;
                number = found;
            }
        }
        written
    }
}

change! {
    hb_set_clear(set) { set.clear(); }
    hb_set_invert(set) { set.invert(); }
    hb_set_add(set, number: hb_codepoint_t) { set.add(number); }
    hb_set_add_range(set, first: hb_codepoint_t, last: hb_codepoint_t) { set.add_range(first, last); }
    hb_set_add_sorted_array(set, numbers: *const hb_codepoint_t, count: c_uint) {
        let mut before = 0;
        for &number in slice(numbers, count as usize) {
            if number < before {
                return;
            }
            before = number;
            set.add(number);
        }
    }
    hb_set_del(set, number: hb_codepoint_t) { set.remove_range(number, number); }
    hb_set_del_range(set, first: hb_codepoint_t, last: hb_codepoint_t) { set.remove_range(first, last); }
    hb_set_set(set, other: *const hb_set_t) {
        if !std::ptr::eq(set, other) {
            set.ranges = (*other).ranges.clone();
            set.is_inverted = (*other).is_inverted;
        }
    }
}

/// The calls that put what two sets make in the place of the first.
macro_rules! operate {
    ($($call:ident $operation:expr, $with_itself:expr;)*) => {
        $(
            #[unsafe(no_mangle)]
            pub unsafe extern "C" fn $call(set: *mut hb_set_t, other: *const hb_set_t) {
                // SAFETY: HarfBuzz's terms: a set that nobody else uses, and one that is alive. The two may be one, which is then
                // not borrowed twice.
                unsafe {
                    let Some(changed) = changing(set) else {
                        return;
                    };
                    if !std::ptr::eq(changed, other) {
                        changed.operate(&*other, $operation);
                    } else if !$with_itself {
                        changed.clear();
                    }
                }
            }
        )*
    };
}

operate! {
    hb_set_union |a, b| a | b, true;
    hb_set_intersect |a, b| a & b, true;
    hb_set_subtract |a, b| a & !b, false;
    hb_set_symmetric_difference |a, b| a ^ b, false;
}
