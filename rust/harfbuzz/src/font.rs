//! `hb-font.h`: a face at a size, with the functions that answer of its glyphs.
//!
//! The fields of a font are cells, since a function of the caller's may set something of the font that asked it. As HarfBuzz says,
//! a font that threads share is not changed any more.

pub mod asking;
mod calls;
mod drawing;
pub mod functions;
mod glyph_function;
mod names;
pub mod opentype;
mod settings;
mod variations;

pub use settings::{hb_font_set_funcs, hb_font_set_scale};
pub use variations::hb_font_set_var_coords_normalized;

use crate::face::pool::Settings;
use crate::face::{hb_face_destroy, hb_face_t};
use crate::font::functions::{hb_font_funcs_destroy, hb_font_funcs_t};
use crate::object::{Empty, Header, Object, given, object_calls, reference, release};
use crate::types::{hb_bool_t, hb_destroy_func_t};
use std::cell::Cell;
use std::ffi::{c_uint, c_void};
use std::ptr::null_mut;
use std::sync::{Mutex, PoisonError, RwLock, RwLockReadGuard};
use vukhaso::internals::ot_shape::KeptPlans;

const NO_INSTANCE: u32 = u32::MAX;

/// How much bolder glyphs are made, in ems.
#[derive(Clone, Copy, Default)]
struct Bold {
    x: f32,
    y: f32,
    in_place: bool,
}

/// A list that threads may read at the same time.
#[derive(Default)]
struct Shared<T>(RwLock<Vec<T>>);

impl<T> Shared<T> {
    fn borrow(&self) -> RwLockReadGuard<'_, Vec<T>> {
        self.0.read().unwrap_or_else(PoisonError::into_inner)
    }

    fn replace(&self, list: Vec<T>) {
        *self.0.write().unwrap_or_else(PoisonError::into_inner) = list;
    }
}

pub struct hb_font_t {
    header: Header,
    parent: Cell<*mut hb_font_t>,
    face: Cell<*mut hb_face_t>,
    scale: Cell<(i32, i32)>,
    ppem: Cell<(c_uint, c_uint)>,
    points: Cell<f32>,
    bold: Cell<Bold>,
    slant: Cell<f32>,
    instance: Cell<u32>,
    /// The normalized coordinates; none where no variations are chosen.
    coordinates: Shared<i32>,
    design: Shared<f32>,
    serial: Cell<c_uint>,
    class: Cell<*mut hb_font_funcs_t>,
    data: Cell<*mut c_void>,
    destroy: Cell<hb_destroy_func_t>,
    /// The plans of texts that were shaped with the font's functions.
    plans: Mutex<KeptPlans>,
}

impl Object for hb_font_t {
    fn header(&self) -> &Header {
        &self.header
    }

    fn empty() -> *mut Self {
        static EMPTY: Empty<hb_font_t> = Empty::new();
        EMPTY.get(|| hb_font_t::of(Header::of_empty(), null_mut(), hb_face_t::empty(), (1000, 1000)))
    }
}

object_calls!(hb_font_t: hb_font_get_empty hb_font_reference hb_font_destroy hb_font_set_user_data hb_font_get_user_data);

impl Drop for hb_font_t {
    fn drop(&mut self) {
        release(self.data.get(), self.destroy.get());
        // SAFETY: the font gives up its own references.
        unsafe {
            hb_font_funcs_destroy(self.class.get());
            hb_font_destroy(self.parent.get());
            hb_face_destroy(self.face.get());
        }
    }
}

impl hb_font_t {
    fn of(header: Header, parent: *mut hb_font_t, face: *mut hb_face_t, scale: (i32, i32)) -> Self {
        hb_font_t {
            header,
            parent: Cell::new(parent),
            face: Cell::new(face),
            scale: Cell::new(scale),
            ppem: Cell::default(),
            points: Cell::default(),
            bold: Cell::default(),
            slant: Cell::default(),
            instance: Cell::new(NO_INSTANCE),
            coordinates: Shared::default(),
            design: Shared::default(),
            serial: Cell::new(0),
            class: Cell::new(hb_font_funcs_t::empty()),
            data: Cell::new(null_mut()),
            destroy: Cell::new(None),
            plans: Mutex::new(KeptPlans::new()),
        }
    }

    pub fn face(&self) -> &hb_face_t {
        // SAFETY: the font holds a reference of its face.
        unsafe { &*self.face.get() }
    }

    pub fn functions(&self) -> &hb_font_funcs_t {
        self.class()
    }

    pub fn parent_font(&self) -> Option<&hb_font_t> {
        self.parent()
    }

    fn parent(&self) -> Option<&hb_font_t> {
        // SAFETY: the font holds a reference of its parent.
        unsafe { self.parent.get().as_ref() }
    }

    fn class(&self) -> &hb_font_funcs_t {
        // SAFETY: the font holds a reference of its functions.
        unsafe { &*self.class.get() }
    }

    pub fn scale(&self) -> (i32, i32) {
        self.scale.get()
    }

    pub fn coordinates(&self) -> RwLockReadGuard<'_, Vec<i32>> {
        self.coordinates.borrow()
    }

    pub fn design(&self) -> RwLockReadGuard<'_, Vec<f32>> {
        self.design.borrow()
    }

    pub fn serial(&self) -> c_uint {
        self.serial.get()
    }

    /// What the font's functions are passed, and by which function it is given back.
    pub fn functions_data(&self) -> (*mut c_void, hb_destroy_func_t) {
        (self.data.get(), self.destroy.get())
    }

    pub fn slant(&self) -> f32 {
        self.slant.get()
    }

    /// How far a glyph is moved across for each unit upwards.
    pub fn slant_across(&self) -> f32 {
        let (x, y) = self.scale();
        if y == 0 { 0.0 } else { self.slant.get() * x as f32 / y as f32 }
    }

    pub fn points(&self) -> f32 {
        self.points.get()
    }

    pub fn ppem(&self) -> (c_uint, c_uint) {
        self.ppem.get()
    }

    /// By how much glyphs are made bolder, and whether their advances stay.
    pub fn strength(&self) -> (i32, i32, bool) {
        let (bold, (x, y)) = (self.bold.get(), self.scale());
        let strength = |scale: i32, part: f32| (scale as f32 * part).abs().round() as i32;
        (strength(x, bold.x), strength(y, bold.y), bold.in_place)
    }

    /// How the shaper's font is set for this one.
    pub fn shaper_settings(&self) -> Settings {
        Settings {
            units_per_em: self.face().units_per_em(),
            scale: self.scale(),
            ppem: self.ppem.get(),
            points: self.points.get(),
            coordinates: self.coordinates().clone(),
        }
    }

    /// Asks the shaper's font.
    pub fn with_shaper<T>(&self, ask: impl FnOnce(&mut vukhaso::Face<'static>) -> T) -> T {
        self.face().with_shaper(&self.shaper_settings(), |face, _| ask(face))
    }

    /// Asks the shaper's font, with the plan of the text before.
    pub fn with_shaper_and_plan<T>(&self, ask: impl FnOnce(&mut vukhaso::Face<'static>, &mut KeptPlans) -> T) -> T {
        self.face().with_shaper(&self.shaper_settings(), ask)
    }

    /// Lends the plans of the font's functions; none to a second caller at the same time.
    pub fn with_plans<T>(&self, ask: impl FnOnce(&mut KeptPlans) -> T) -> T {
        match self.plans.try_lock() {
            Ok(mut plans) => ask(&mut plans),
            Err(_) => ask(&mut KeptPlans::new()),
        }
    }

    fn changed(&self) {
        self.serial.set(self.serial.get() + 1);
        self.with_plans(|plans| *plans = KeptPlans::new());
    }

    fn is_immutable(&self) -> bool {
        self.header.is_immutable()
    }

    pub fn em_scale_x(&self, value: i32) -> i32 {
        em_scale(value, self.scale().0, self.face().units_per_em())
    }

    pub fn em_scale_y(&self, value: i32) -> i32 {
        em_scale(value, self.scale().1, self.face().units_per_em())
    }

    pub fn em_scalef_x(&self, value: f32) -> i32 {
        em_scalef(value, self.scale().0, self.face().units_per_em())
    }

    pub fn em_scalef_y(&self, value: f32) -> i32 {
        em_scalef(value, self.scale().1, self.face().units_per_em())
    }
}

/// A number of font units at a size, as HarfBuzz rounds it: by a factor in 65536ths.
fn em_scale(value: i32, scale: i32, units_per_em: u32) -> i32 {
    let factor = (i64::from(scale) << 16) / i64::from(units_per_em.max(1));
    ((i64::from(value) * factor + (1 << 15)) >> 16) as i32
}

fn em_scalef(value: f32, scale: i32, units_per_em: u32) -> i32 {
    (value * (scale as f32 / units_per_em.max(1) as f32)).round() as i32
}

fn created(face: *mut hb_face_t) -> *mut hb_font_t {
    let face = if face.is_null() { hb_face_t::empty() } else { face };
    // SAFETY: HarfBuzz's terms: a face that is alive.
    let units = unsafe {
        crate::face::hb_face_make_immutable(face);
        (*face).units_per_em() as i32
    };
    // SAFETY: as above; the empty font is never freed.
    let (parent, face) = unsafe { (reference(hb_font_t::empty()), reference(face)) };
    given(hb_font_t::of(Header::new(), parent, face, (units, units)))
}

#[unsafe(no_mangle)]
pub unsafe extern "C" fn hb_font_create(face: *mut hb_face_t) -> *mut hb_font_t {
    let font = created(face);
    // SAFETY: the font was just made.
    let shared = unsafe { &*font };
    opentype::set_functions(shared);
    if let Some(instance) = shared.face().instance() {
        variations::set_instance(shared, instance);
    }
    font
}

#[unsafe(no_mangle)]
pub unsafe extern "C" fn hb_font_create_sub_font(parent: *mut hb_font_t) -> *mut hb_font_t {
    let parent = if parent.is_null() { hb_font_t::empty() } else { parent };
    // SAFETY: HarfBuzz's terms: a font that is alive.
    let shared = unsafe { &*parent };
    let font = created(shared.face.get());
    // SAFETY: as above; the font was just made, and gives its first parent up.
    let sub_font = unsafe {
        hb_font_destroy((*font).parent.replace(reference(parent)));
        &*font
    };
    sub_font.scale.set(shared.scale.get());
    sub_font.ppem.set(shared.ppem.get());
    sub_font.points.set(shared.points.get());
    sub_font.bold.set(shared.bold.get());
    sub_font.slant.set(shared.slant.get());
    sub_font.instance.set(shared.instance.get());
    sub_font.coordinates.replace(shared.coordinates.borrow().clone());
    sub_font.design.replace(shared.design.borrow().clone());
    font
}

#[unsafe(no_mangle)]
pub unsafe extern "C" fn hb_font_make_immutable(font: *mut hb_font_t) {
    // SAFETY: HarfBuzz's terms: a font that is alive.
    let mut next = unsafe { font.as_ref() };
    while let Some(font) = next {
        font.header.make_immutable();
        next = font.parent();
    }
}

#[unsafe(no_mangle)]
pub unsafe extern "C" fn hb_font_is_immutable(font: *mut hb_font_t) -> hb_bool_t {
    // SAFETY: HarfBuzz's terms: a font that is alive.
    unsafe { &*font }.is_immutable().into()
}
