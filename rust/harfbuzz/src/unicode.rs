//! `hb-unicode.h`: what Unicode says of characters, by functions of the caller's or by the data of the proved shaper.

use crate::object::{Empty, Header, Object, given, object_calls, reference, release};
use crate::types::{hb_bool_t, hb_codepoint_t, hb_destroy_func_t, hb_script_t, put};
use std::cell::Cell;
use std::ffi::{c_uint, c_void};
use std::ptr::{from_ref, null_mut};

mod data;

type Functions = *mut hb_unicode_funcs_t;
type Data = *mut c_void;
type Character = hb_codepoint_t;
type Number = unsafe extern "C" fn(Functions, Character, Data) -> c_uint;
type Mirror = unsafe extern "C" fn(Functions, Character, Data) -> Character;
type ScriptOf = unsafe extern "C" fn(Functions, Character, Data) -> hb_script_t;
type Compose = unsafe extern "C" fn(Functions, Character, Character, *mut Character, Data) -> hb_bool_t;
type Decompose = unsafe extern "C" fn(Functions, Character, *mut Character, *mut Character, Data) -> hb_bool_t;
type DecomposeWhole = unsafe extern "C" fn(Functions, Character, *mut Character, Data) -> c_uint;

struct Slot<F> {
    function: F,
    data: *mut c_void,
    destroy: hb_destroy_func_t,
}

impl<F: Copy> Clone for Slot<F> {
    fn clone(&self) -> Self {
        *self
    }
}

impl<F: Copy> Copy for Slot<F> {}

/// The type of the functions, with the call that sets each.
macro_rules! functions {
    ($($field:ident: $type:ty, $set:ident;)*) => {
        #[derive(Default)]
        struct Slots {
            $($field: Cell<Option<Slot<$type>>>,)*
        }

        impl Drop for Slots {
            fn drop(&mut self) {
                $(
                    if let Some(slot) = self.$field.take() {
                        release(slot.data, slot.destroy);
                    }
                )*
            }
        }

        $(
            #[unsafe(no_mangle)]
            pub unsafe extern "C" fn $set(
                functions: *mut hb_unicode_funcs_t,
                function: Option<$type>,
                data: *mut c_void,
                destroy: hb_destroy_func_t,
            ) {
                // SAFETY: HarfBuzz's terms: functions that are alive.
                let functions = unsafe { &*functions };
                if functions.header.is_immutable() {
                    return release(data, destroy);
                }
                let slot = function.map(|function| Slot { function, data, destroy });
                if slot.is_none() {
                    release(data, destroy);
                }
                if let Some(before) = functions.slots.$field.replace(slot) {
                    release(before.data, before.destroy);
                }
            }
        )*
    };
}

functions! {
    combining_class: Number, hb_unicode_funcs_set_combining_class_func;
    general_category: Number, hb_unicode_funcs_set_general_category_func;
    mirroring: Mirror, hb_unicode_funcs_set_mirroring_func;
    script: ScriptOf, hb_unicode_funcs_set_script_func;
    compose: Compose, hb_unicode_funcs_set_compose_func;
    decompose: Decompose, hb_unicode_funcs_set_decompose_func;
    east_asian_width: Number, hb_unicode_funcs_set_eastasian_width_func;
    decompose_compatibility: DecomposeWhole, hb_unicode_funcs_set_decompose_compatibility_func;
}

/// What functions without a parent answer.
#[derive(Clone, Copy, PartialEq)]
enum Root {
    /// Nothing is known.
    Nothing,
    /// Unicode's data.
    Data,
}

pub struct hb_unicode_funcs_t {
    header: Header,
    parent: *mut hb_unicode_funcs_t,
    root: Root,
    slots: Slots,
}

impl Object for hb_unicode_funcs_t {
    fn header(&self) -> &Header {
        &self.header
    }

    fn empty() -> *mut Self {
        static EMPTY: Empty<hb_unicode_funcs_t> = Empty::new();
        EMPTY.get(|| hb_unicode_funcs_t::of(Header::of_empty(), null_mut(), Root::Nothing))
    }
}

object_calls!(hb_unicode_funcs_t: hb_unicode_funcs_get_empty hb_unicode_funcs_reference hb_unicode_funcs_destroy hb_unicode_funcs_set_user_data hb_unicode_funcs_get_user_data);

impl Drop for hb_unicode_funcs_t {
    fn drop(&mut self) {
        // SAFETY: the functions give up their own reference.
        unsafe { hb_unicode_funcs_destroy(self.parent) }
    }
}

/// Asks the function of a field, or the parent, or what stands at the root.
macro_rules! ask {
    ($self:ident, $field:ident, $slot:ident => $call:expr, $parent:ident => $inherited:expr, $nothing:expr, $data:expr) => {
        if let Some($slot) = $self.slots.$field.get() {
            // SAFETY: the user gave the function with its data.
            unsafe { $call }
        } else if let Some($parent) = $self.parent() {
            $inherited
        } else if $self.root == Root::Data {
            $data
        } else {
            $nothing
        }
    };
}

impl hb_unicode_funcs_t {
    fn of(header: Header, parent: *mut hb_unicode_funcs_t, root: Root) -> Self {
        hb_unicode_funcs_t { header, parent, root, slots: Slots::default() }
    }

    fn parent(&self) -> Option<&hb_unicode_funcs_t> {
        // SAFETY: the functions hold a reference of their parent.
        unsafe { self.parent.as_ref() }
    }

    fn address(&self) -> Functions {
        from_ref(self).cast_mut()
    }

    pub fn combining_class(&self, c: Character) -> c_uint {
        ask!(
            self, combining_class, slot => (slot.function)(self.address(), c, slot.data),
            parent => parent.combining_class(c), 0, data::combining_class(c)
        )
    }

    pub fn general_category(&self, c: Character) -> c_uint {
        ask!(
            self, general_category, slot => (slot.function)(self.address(), c, slot.data),
            parent => parent.general_category(c), data::OTHER_LETTER, data::general_category(c)
        )
    }

    pub fn mirroring(&self, c: Character) -> Character {
        ask!(
            self, mirroring, slot => (slot.function)(self.address(), c, slot.data),
            parent => parent.mirroring(c), c, data::mirroring(c)
        )
    }

    pub fn script(&self, c: Character) -> hb_script_t {
        ask!(
            self, script, slot => (slot.function)(self.address(), c, slot.data),
            parent => parent.script(c), crate::common::scripts::UNKNOWN, data::script(c)
        )
    }

    /// How wide a character is among East Asian ones: 1, unless a function says else.
    fn east_asian_width(&self, c: Character) -> c_uint {
        ask!(
            self, east_asian_width, slot => (slot.function)(self.address(), c, slot.data),
            parent => parent.east_asian_width(c), 1, 1
        )
    }

    /// Writes the compatibility decomposition of a character, and answers its length: 0, unless a function says else.
    fn decompose_compatibility(&self, c: Character, decomposed: *mut Character) -> c_uint {
        ask!(
            self, decompose_compatibility, slot => (slot.function)(self.address(), c, decomposed, slot.data),
            parent => parent.decompose_compatibility(c, decomposed), 0, 0
        )
    }

    pub fn compose(&self, a: Character, b: Character) -> Option<Character> {
        if a == 0 || b == 0 {
            return None;
        }
        let mut ab = 0;
        ask!(
            self, compose,
            slot => ((slot.function)(self.address(), a, b, &raw mut ab, slot.data) != 0).then_some(ab),
            parent => parent.compose(a, b), None, data::compose(a, b)
        )
    }

    pub fn decompose(&self, ab: Character) -> Option<(Character, Character)> {
        let (mut a, mut b) = (ab, 0);
        ask!(
            self, decompose,
            slot => ((slot.function)(self.address(), ab, &raw mut a, &raw mut b, slot.data) != 0).then_some((a, b)),
            parent => parent.decompose(ab), None, data::decompose(ab)
        )
    }
}

#[unsafe(no_mangle)]
pub extern "C" fn hb_unicode_funcs_get_default() -> *mut hb_unicode_funcs_t {
    static DEFAULT: Empty<hb_unicode_funcs_t> = Empty::new();
    DEFAULT.get(|| hb_unicode_funcs_t::of(Header::of_empty(), null_mut(), Root::Data))
}

#[unsafe(no_mangle)]
pub unsafe extern "C" fn hb_unicode_funcs_create(parent: *mut hb_unicode_funcs_t) -> *mut hb_unicode_funcs_t {
    let parent = if parent.is_null() { hb_unicode_funcs_t::empty() } else { parent };
    // SAFETY: HarfBuzz's terms: functions that are alive.
    unsafe {
        (*parent).header.make_immutable();
        given(hb_unicode_funcs_t::of(Header::new(), reference(parent), Root::Nothing))
    }
}

#[unsafe(no_mangle)]
pub unsafe extern "C" fn hb_unicode_funcs_make_immutable(functions: *mut hb_unicode_funcs_t) {
    // SAFETY: HarfBuzz's terms: functions that are alive.
    unsafe { &*functions }.header.make_immutable();
}

#[unsafe(no_mangle)]
pub unsafe extern "C" fn hb_unicode_funcs_is_immutable(functions: *mut hb_unicode_funcs_t) -> hb_bool_t {
    // SAFETY: HarfBuzz's terms: functions that are alive.
    unsafe { &*functions }.header.is_immutable().into()
}

#[unsafe(no_mangle)]
pub unsafe extern "C" fn hb_unicode_funcs_get_parent(functions: *mut hb_unicode_funcs_t) -> *mut hb_unicode_funcs_t {
    // SAFETY: HarfBuzz's terms: functions that are alive.
    let parent = unsafe { &*functions }.parent;
    if parent.is_null() { hb_unicode_funcs_t::empty() } else { parent }
}

/// A call that asks of a character.
macro_rules! call {
    ($call:ident, $ask:ident, $answer:ty) => {
        #[unsafe(no_mangle)]
        pub unsafe extern "C" fn $call(functions: *mut hb_unicode_funcs_t, c: hb_codepoint_t) -> $answer {
            // SAFETY: HarfBuzz's terms: functions that are alive.
            unsafe { &*functions }.$ask(c)
        }
    };
}

call!(hb_unicode_combining_class, combining_class, c_uint);
call!(hb_unicode_general_category, general_category, c_uint);
call!(hb_unicode_mirroring, mirroring, hb_codepoint_t);
call!(hb_unicode_script, script, hb_script_t);

#[unsafe(no_mangle)]
pub unsafe extern "C" fn hb_unicode_compose(
    functions: *mut hb_unicode_funcs_t,
    a: hb_codepoint_t,
    b: hb_codepoint_t,
    ab: *mut hb_codepoint_t,
) -> hb_bool_t {
    // SAFETY: HarfBuzz's terms: functions that are alive, and a place.
    unsafe {
        let found = (*functions).compose(a, b);
        put(ab, found.unwrap_or(0));
        found.is_some().into()
    }
}

#[unsafe(no_mangle)]
pub unsafe extern "C" fn hb_unicode_decompose(
    functions: *mut hb_unicode_funcs_t,
    ab: hb_codepoint_t,
    a: *mut hb_codepoint_t,
    b: *mut hb_codepoint_t,
) -> hb_bool_t {
    // SAFETY: HarfBuzz's terms: functions that are alive, and two places.
    unsafe {
        let found = (*functions).decompose(ab);
        let (first, second) = found.unwrap_or((ab, 0));
        put(a, first);
        put(b, second);
        found.is_some().into()
    }
}

#[unsafe(no_mangle)]
pub unsafe extern "C" fn hb_unicode_eastasian_width(functions: *mut hb_unicode_funcs_t, c: hb_codepoint_t) -> c_uint {
    // SAFETY: HarfBuzz's terms: functions that are alive.
    unsafe { &*functions }.east_asian_width(c)
}

#[unsafe(no_mangle)]
pub unsafe extern "C" fn hb_unicode_decompose_compatibility(
    functions: *mut hb_unicode_funcs_t,
    c: hb_codepoint_t,
    decomposed: *mut hb_codepoint_t,
) -> c_uint {
    // SAFETY: HarfBuzz's terms: functions that are alive, and room for the longest decomposition with a 0 behind it.
    unsafe {
        let length = (*functions).decompose_compatibility(c, decomposed);
        let length = if length == 1 && *decomposed == c { 0 } else { length };
        *decomposed.add(length as usize) = 0;
        length
    }
}
