//! Font functions: what a font answers of its glyphs, by functions of the caller's. Each that is not set is asked of the font's parent.

use crate::draw::hb_draw_funcs_t;
use crate::font::hb_font_t;
use crate::object::{Empty, Header, Object, given, object_calls, release};
use crate::types::{hb_bool_t, hb_codepoint_t, hb_destroy_func_t, hb_position_t};
use std::cell::Cell;
use std::ffi::{c_char, c_int, c_uint, c_void};
use std::ptr::null_mut;

/// The box around a glyph.
#[repr(C)]
#[derive(Clone, Copy, Default, Debug, PartialEq)]
pub struct hb_glyph_extents_t {
    pub x_bearing: hb_position_t,
    pub y_bearing: hb_position_t,
    pub width: hb_position_t,
    pub height: hb_position_t,
}

/// How far lines reach.
#[repr(C)]
#[derive(Clone, Copy, Default, Debug, PartialEq)]
pub struct hb_font_extents_t {
    pub ascender: hb_position_t,
    pub descender: hb_position_t,
    pub line_gap: hb_position_t,
    pub(crate) reserved: [hb_position_t; 9],
}

type Font = *mut hb_font_t;
type Data = *mut c_void;
type Position = *mut hb_position_t;
pub type FontExtents = unsafe extern "C" fn(Font, Data, *mut hb_font_extents_t, Data) -> hb_bool_t;
pub type NominalGlyph = unsafe extern "C" fn(Font, Data, hb_codepoint_t, *mut hb_codepoint_t, Data) -> hb_bool_t;
pub type NominalGlyphs =
    unsafe extern "C" fn(Font, Data, c_uint, *const hb_codepoint_t, c_uint, *mut hb_codepoint_t, c_uint, Data) -> c_uint;
pub type VariationGlyph =
    unsafe extern "C" fn(Font, Data, hb_codepoint_t, hb_codepoint_t, *mut hb_codepoint_t, Data) -> hb_bool_t;
pub type Advance = unsafe extern "C" fn(Font, Data, hb_codepoint_t, Data) -> hb_position_t;
pub type Advances = unsafe extern "C" fn(Font, Data, c_uint, *const hb_codepoint_t, c_uint, Position, c_uint, Data);
pub type Origin = unsafe extern "C" fn(Font, Data, hb_codepoint_t, Position, Position, Data) -> hb_bool_t;
pub type Kerning = unsafe extern "C" fn(Font, Data, hb_codepoint_t, hb_codepoint_t, Data) -> hb_position_t;
pub type Extents = unsafe extern "C" fn(Font, Data, hb_codepoint_t, *mut hb_glyph_extents_t, Data) -> hb_bool_t;
pub type ContourPoint = unsafe extern "C" fn(Font, Data, hb_codepoint_t, c_uint, Position, Position, Data) -> hb_bool_t;
pub type Name = unsafe extern "C" fn(Font, Data, hb_codepoint_t, *mut c_char, c_uint, Data) -> hb_bool_t;
pub type FromName = unsafe extern "C" fn(Font, Data, *const c_char, c_int, *mut hb_codepoint_t, Data) -> hb_bool_t;
pub type DrawGlyph = unsafe extern "C" fn(Font, Data, hb_codepoint_t, *mut hb_draw_funcs_t, Data, Data);

/// A function with the data that it is passed.
pub struct Slot<F> {
    pub function: F,
    pub user_data: *mut c_void,
    destroy: hb_destroy_func_t,
}

impl<F: Copy> Clone for Slot<F> {
    fn clone(&self) -> Self {
        *self
    }
}

impl<F: Copy> Copy for Slot<F> {}

impl<F> Slot<F> {
    /// A function that needs no data.
    pub fn of(function: F) -> Cell<Option<Self>> {
        Cell::new(Some(Slot { function, user_data: null_mut(), destroy: None }))
    }

    /// A function of the caller's; `None`, and the data is given back, where there is no function.
    pub fn given(function: Option<F>, user_data: *mut c_void, destroy: hb_destroy_func_t) -> Option<Self> {
        if function.is_none() {
            release(user_data, destroy);
        }
        function.map(|function| Slot { function, user_data, destroy })
    }

    /// Gives the data back.
    pub fn release(self) {
        release(self.user_data, self.destroy);
    }
}

/// The type of the functions of an object, with the call that sets each.
macro_rules! functions {
    ($object:ident; $($field:ident: $type:ty, $set:ident;)*) => {
        /// Functions of the caller's.
        #[derive(Default)]
        pub struct Slots {
            $(pub $field: std::cell::Cell<Option<$crate::font::functions::Slot<$type>>>,)*
        }

        impl Slots {
            /// Gives the users' data back.
            fn release(&self) {
                $(
                    if let Some(slot) = self.$field.take() {
                        slot.release();
                    }
                )*
            }
        }

        $(
            #[unsafe(no_mangle)]
            pub unsafe extern "C" fn $set(
                functions: *mut $object,
                function: Option<$type>,
                user_data: *mut std::ffi::c_void,
                destroy: $crate::types::hb_destroy_func_t,
            ) {
                // SAFETY: HarfBuzz's terms: a set of functions that is alive.
                let functions = unsafe { &*functions };
                if functions.header.is_immutable() {
                    return $crate::object::release(user_data, destroy);
                }
                let slot = $crate::font::functions::Slot::given(function, user_data, destroy);
                if let Some(before) = functions.slots.$field.replace(slot) {
                    before.release();
                }
            }
        )*
    };
}
pub(crate) use functions;

functions! {
    hb_font_funcs_t;
    h_extents: FontExtents, hb_font_funcs_set_font_h_extents_func;
    v_extents: FontExtents, hb_font_funcs_set_font_v_extents_func;
    nominal_glyph: NominalGlyph, hb_font_funcs_set_nominal_glyph_func;
    nominal_glyphs: NominalGlyphs, hb_font_funcs_set_nominal_glyphs_func;
    variation_glyph: VariationGlyph, hb_font_funcs_set_variation_glyph_func;
    h_advance: Advance, hb_font_funcs_set_glyph_h_advance_func;
    v_advance: Advance, hb_font_funcs_set_glyph_v_advance_func;
    h_advances: Advances, hb_font_funcs_set_glyph_h_advances_func;
    v_advances: Advances, hb_font_funcs_set_glyph_v_advances_func;
    h_origin: Origin, hb_font_funcs_set_glyph_h_origin_func;
    v_origin: Origin, hb_font_funcs_set_glyph_v_origin_func;
    h_kerning: Kerning, hb_font_funcs_set_glyph_h_kerning_func;
    v_kerning: Kerning, hb_font_funcs_set_glyph_v_kerning_func;
    extents: Extents, hb_font_funcs_set_glyph_extents_func;
    contour_point: ContourPoint, hb_font_funcs_set_glyph_contour_point_func;
    name: Name, hb_font_funcs_set_glyph_name_func;
    from_name: FromName, hb_font_funcs_set_glyph_from_name_func;
    draw_glyph: DrawGlyph, hb_font_funcs_set_draw_glyph_func;
}

pub struct hb_font_funcs_t {
    header: Header,
    pub slots: Slots,
}

impl Drop for hb_font_funcs_t {
    fn drop(&mut self) {
        self.slots.release();
    }
}

impl hb_font_funcs_t {
    /// The functions that are never freed nor changed.
    pub fn fixed(slots: Slots) -> Self {
        hb_font_funcs_t { header: Header::of_empty(), slots }
    }
}

impl Object for hb_font_funcs_t {
    fn header(&self) -> &Header {
        &self.header
    }

    fn empty() -> *mut Self {
        static EMPTY: Empty<hb_font_funcs_t> = Empty::new();
        EMPTY.get(|| hb_font_funcs_t::fixed(Slots::default()))
    }
}

object_calls!(hb_font_funcs_t: hb_font_funcs_get_empty hb_font_funcs_reference hb_font_funcs_destroy hb_font_funcs_set_user_data hb_font_funcs_get_user_data);

#[unsafe(no_mangle)]
pub extern "C" fn hb_font_funcs_create() -> *mut hb_font_funcs_t {
    given(hb_font_funcs_t { header: Header::new(), slots: Slots::default() })
}

#[unsafe(no_mangle)]
pub unsafe extern "C" fn hb_font_funcs_make_immutable(functions: *mut hb_font_funcs_t) {
    // SAFETY: HarfBuzz's terms: a set of functions that is alive.
    unsafe { &*functions }.header.make_immutable();
}

#[unsafe(no_mangle)]
pub unsafe extern "C" fn hb_font_funcs_is_immutable(functions: *mut hb_font_funcs_t) -> hb_bool_t {
    // SAFETY: HarfBuzz's terms: a set of functions that is alive.
    unsafe { &*functions }.header.is_immutable().into()
}
