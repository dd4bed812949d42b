//! `hb-ft.h`: faces and fonts of FreeType. FreeType is no dependency: its calls are those of the program, or of the library
//! `libfreetype.so.6`, which is loaded when one of these calls is made first.

mod drawing;
mod functions;
mod library;

use crate::blob::{hb_blob_create, hb_blob_destroy, hb_blob_t};
use crate::face::{
    hb_face_create, hb_face_create_for_tables, hb_face_destroy, hb_face_reference_blob, hb_face_set_get_table_tags_func,
    hb_face_set_index, hb_face_set_upem, hb_face_t,
};
use crate::font::hb_font_t;
use crate::ft::library::{Face, FreeType, GlyphSlot, Matrix, NO_HINTING, SYMBOL, UNICODE, freetype};
use crate::object::{Object, reference, release};
use crate::types::{hb_bool_t, hb_codepoint_t, hb_destroy_func_t, hb_tag_t, put_part};
use std::cell::Cell;
use std::ffi::{CStr, CString, c_char, c_int, c_long, c_uint, c_ulong, c_void};
use std::ptr::{null, null_mut};
use std::sync::atomic::{AtomicBool, Ordering};

/// FreeType's face of a font, with what is set of it.
pub struct Held {
    calls: &'static FreeType,
    face: Face,
    load_flags: Cell<c_int>,
    is_symbol: bool,
    /// Whether the font closes the face.
    is_owned: bool,
    /// By how much lengths are multiplied beside what FreeType does.
    times: Cell<(f32, f32)>,
    /// The serial of the font for which the face is set.
    serial: Cell<c_uint>,
    is_locked: AtomicBool,
}

impl Drop for Held {
    fn drop(&mut self) {
        if self.is_owned {
            // SAFETY: the font opened the face, or took a reference of it.
            unsafe { (self.calls.done_face)(self.face) };
        }
    }
}

/// FreeType's face while nobody else uses it.
pub struct Locked<'a> {
    calls: &'static FreeType,
    face: Face,
    load_flags: c_int,
    is_symbol: bool,
    times: (f32, f32),
    lock: &'a AtomicBool,
}

impl Drop for Locked<'_> {
    fn drop(&mut self) {
        self.lock.store(false, Ordering::Release);
    }
}

impl Held {
    fn wait(&self) {
        while self.is_locked.swap(true, Ordering::Acquire) {
            std::thread::yield_now();
        }
    }

    pub fn lock(&self) -> Locked<'_> {
        self.wait();
        Locked {
            calls: self.calls,
            face: self.face,
            load_flags: self.load_flags.get(),
            is_symbol: self.is_symbol,
            times: self.times.get(),
            lock: &self.is_locked,
        }
    }

    /// Sets FreeType's face to the size and the variations of the font.
    fn follow(&self, font: &hb_font_t) {
        let (x, y) = font.scale();
        let mut times = (if x < 0 { -1.0 } else { 1.0 }, if y < 0 { -1.0 } else { 1.0 });
        // SAFETY: the face is alive while the font holds it.
        unsafe {
            let face = &*self.face;
            let error = (self.calls.set_char_size)(self.face, c_long::from(x).abs(), c_long::from(y).abs(), 0, 0);
            if error != 0 && face.num_fixed_sizes > 0 {
                let largest = &*face.available_sizes.add(face.num_fixed_sizes as usize - 1);
                (self.calls.set_char_size)(self.face, largest.x_ppem, largest.y_ppem, 0, 0);
                times = (x as f32 / largest.x_ppem as f32, y as f32 / largest.y_ppem as f32);
            }
            if times != (1.0, 1.0) {
                let fixed = |times: f32| (times * 65536.0).round() as c_long;
                let matrix = Matrix { xx: fixed(times.0), xy: 0, yx: 0, yy: fixed(times.1) };
                (self.calls.set_transform)(self.face, &raw const matrix, null());
            }
            let mut design: Vec<c_long> = font.design().iter().map(|value| (value * 65536.0) as c_long).collect();
            if !design.is_empty() {
                (self.calls.set_design)(self.face, design.len() as c_uint, design.as_mut_ptr());
            }
        }
        self.times.set(times);
        self.serial.set(font.serial());
    }
}

impl Locked<'_> {
    fn char_index(&self, character: hb_codepoint_t) -> c_uint {
        // SAFETY: the face is alive while the font holds it.
        unsafe { (self.calls.char_index)(self.face, c_ulong::from(character)) }
    }

    fn advance(&self, glyph: hb_codepoint_t, flags: c_int) -> Option<c_long> {
        let mut advance = 0;
        // SAFETY: the face is alive while the font holds it; a place for the answer.
        let error = unsafe { (self.calls.advance)(self.face, glyph, flags, &raw mut advance) };
        (error == 0).then_some(advance)
    }

    /// A glyph as FreeType loads it, until the next is loaded.
    fn loaded(&self, glyph: hb_codepoint_t) -> Option<&GlyphSlot> {
        // SAFETY: the face is alive while the font holds it, and its slot is filled where there is no error.
        unsafe {
            let error = (self.calls.load_glyph)(self.face, glyph, self.load_flags);
            if error == 0 { (*self.face).glyph.as_ref() } else { None }
        }
    }

    fn name(&self, glyph: hb_codepoint_t) -> Option<CString> {
        let mut name = [0 as c_char; 128];
        // SAFETY: the face is alive while the font holds it; room for 128 bytes, of which the last stays 0.
        let found = unsafe {
            let error = (self.calls.glyph_name)(self.face, glyph, name.as_mut_ptr(), 127);
            (error == 0).then(|| CStr::from_ptr(name.as_ptr()).to_owned())
        };
        found.filter(|name| !name.is_empty())
    }
}

unsafe extern "C" fn destroy_held(held: *mut c_void) {
    // SAFETY: `set_functions` made it of a box.
    drop(unsafe { Box::from_raw(held.cast::<Held>()) });
}

/// FreeType's face of a font, where it is one of these.
fn held_of(font: &hb_font_t) -> Option<&Held> {
    let (data, destroy) = font.functions_data();
    let own: unsafe extern "C" fn(*mut c_void) = destroy_held;
    // SAFETY: fonts whose data is given back by `destroy_held` have such data.
    destroy.filter(|destroy| std::ptr::fn_addr_eq(*destroy, own)).map(|_| unsafe { &*data.cast::<Held>() })
}

/// Makes FreeType answer what is asked of a font.
fn set_functions(font: *mut hb_font_t, calls: &'static FreeType, face: Face, is_owned: bool) {
    // SAFETY: this module's callers pass a font and a face that are alive.
    let charmap = unsafe { (*face).charmap.as_ref() };
    let held = Held {
        calls,
        face,
        load_flags: Cell::new(NO_HINTING),
        is_symbol: charmap.is_some_and(|charmap| charmap.encoding == SYMBOL),
        is_owned,
        times: Cell::new((1.0, 1.0)),
        serial: Cell::new(c_uint::MAX),
        is_locked: AtomicBool::new(false),
    };
    let held = Box::into_raw(Box::new(held)).cast();
    // SAFETY: as above.
    unsafe { crate::font::hb_font_set_funcs(font, functions::functions(), held, Some(destroy_held)) }
}

unsafe extern "C" fn reference_table(_: *mut hb_face_t, tag: hb_tag_t, face: *mut c_void) -> *mut hb_blob_t {
    let Some(calls) = freetype() else {
        return null_mut();
    };
    let mut length = 0;
    // SAFETY: the data of such a face is FreeType's face; room for as many bytes as it says.
    unsafe {
        let face = face.cast();
        if (calls.load_table)(face, tag.into(), 0, null_mut(), &raw mut length) != 0 {
            return null_mut();
        }
        let mut table = vec![0; length as usize];
        if (calls.load_table)(face, tag.into(), 0, table.as_mut_ptr(), &raw mut length) != 0 {
            return null_mut();
        }
        hb_blob_t::owning(table)
    }
}

unsafe extern "C" fn table_tags(
    _: *const hb_face_t,
    start: c_uint,
    count: *mut c_uint,
    tags: *mut hb_tag_t,
    face: *mut c_void,
) -> c_uint {
    let Some(calls) = freetype() else {
        return 0;
    };
    let mut all = 0;
    // SAFETY: the data of such a face is FreeType's face; places for the answers.
    unsafe {
        (calls.table_info)(face.cast(), 0, null_mut(), &raw mut all);
        let tag = |number| {
            let (mut tag, mut length) = (0, 0);
            (calls.table_info)(face.cast(), number as c_uint, &raw mut tag, &raw mut length);
            tag as hb_tag_t
        };
        put_part((0..all as usize).map(tag), start, count, tags)
    }
}

#[unsafe(no_mangle)]
pub unsafe extern "C" fn hb_ft_face_create(face: Face, destroy: hb_destroy_func_t) -> *mut hb_face_t {
    // SAFETY: HarfBuzz's terms: FreeType's face, which is alive until `destroy` is called.
    unsafe {
        let stream = &*(*face).stream;
        let made = if stream.read.is_none() {
            let blob = hb_blob_create(stream.base.cast(), stream.size as c_uint, 1, face.cast(), destroy);
            let made = hb_face_create(blob, (*face).face_index as c_uint);
            hb_blob_destroy(blob);
            made
        } else {
            let made = hb_face_create_for_tables(Some(reference_table), face.cast(), destroy);
            hb_face_set_get_table_tags_func(made, Some(table_tags), face.cast(), None);
            made
        };
        hb_face_set_index(made, (*face).face_index as c_uint);
        hb_face_set_upem(made, (*face).units_per_em.into());
        made
    }
}

unsafe extern "C" fn done_face(face: *mut c_void) {
    if let Some(calls) = freetype() {
        // SAFETY: a face of which a reference was taken.
        unsafe { (calls.done_face)(face.cast()) };
    }
}

#[unsafe(no_mangle)]
pub unsafe extern "C" fn hb_ft_face_create_referenced(face: Face) -> *mut hb_face_t {
    let Some(calls) = freetype() else {
        return hb_face_t::empty();
    };
    // SAFETY: HarfBuzz's terms: FreeType's face.
    unsafe {
        (calls.reference_face)(face);
        hb_ft_face_create(face, Some(done_face))
    }
}

/// Gives back the face that FreeType's face keeps.
unsafe extern "C" fn finalize(face: *mut c_void) {
    // SAFETY: FreeType calls it with its face, which has ours as its data.
    unsafe { hb_face_destroy((*face.cast::<library::FaceRecord>()).generic.data.cast()) }
}

#[unsafe(no_mangle)]
pub unsafe extern "C" fn hb_ft_face_create_cached(face: Face) -> *mut hb_face_t {
    // SAFETY: HarfBuzz's terms: FreeType's face, of which nobody else uses `generic`.
    unsafe {
        let own: unsafe extern "C" fn(*mut c_void) = finalize;
        let generic = &mut (*face).generic;
        if generic.data.is_null() || !generic.finalizer.is_some_and(|other| std::ptr::fn_addr_eq(other, own)) {
            if let Some(finalizer) = generic.finalizer {
                finalizer(face.cast());
            }
            generic.data = hb_ft_face_create(face, None).cast();
            generic.finalizer = Some(own);
        }
        reference(generic.data.cast::<hb_face_t>())
    }
}

/// FreeType's face of a file.
unsafe fn opened(calls: &FreeType, name: *const c_char, index: c_uint) -> Option<Face> {
    let mut face = null_mut();
    // SAFETY: the caller's text with a zero behind it; a place for the face.
    let error = unsafe { (calls.new_face)(library::library(calls), name, c_long::from(index), &raw mut face) };
    (error == 0).then_some(face)
}

#[unsafe(no_mangle)]
pub unsafe extern "C" fn hb_ft_face_create_from_file_or_fail(name: *const c_char, index: c_uint) -> *mut hb_face_t {
    let Some(calls) = freetype() else {
        return null_mut();
    };
    // SAFETY: HarfBuzz's terms: a text with a zero behind it.
    match unsafe { opened(calls, name, index) } {
        // SAFETY: the face was just opened, and is closed with ours.
        Some(face) => unsafe { hb_ft_face_create(face, Some(done_face)) },
        None => null_mut(),
    }
}

/// A font of FreeType's face, which closes it where that is said.
unsafe fn font_of(face: Face, destroy: hb_destroy_func_t, is_owned: bool) -> *mut hb_font_t {
    let Some(calls) = freetype() else {
        release(face.cast(), destroy);
        return hb_font_t::empty();
    };
    // SAFETY: the caller's word: FreeType's face.
    unsafe {
        let made = hb_ft_face_create(face, destroy);
        let font = crate::font::hb_font_create(made);
        hb_face_destroy(made);
        set_functions(font, calls, face, is_owned);
        hb_ft_font_changed(font);
        font
    }
}

#[unsafe(no_mangle)]
pub unsafe extern "C" fn hb_ft_font_create(face: Face, destroy: hb_destroy_func_t) -> *mut hb_font_t {
    // SAFETY: HarfBuzz's terms: FreeType's face, which is alive until `destroy` is called.
    unsafe { font_of(face, destroy, false) }
}

#[unsafe(no_mangle)]
pub unsafe extern "C" fn hb_ft_font_create_referenced(face: Face) -> *mut hb_font_t {
    let Some(calls) = freetype() else {
        return hb_font_t::empty();
    };
    // SAFETY: HarfBuzz's terms: FreeType's face.
    unsafe {
        (calls.reference_face)(face);
        font_of(face, Some(done_face), false)
    }
}

#[unsafe(no_mangle)]
pub unsafe extern "C" fn hb_ft_font_set_funcs(font: *mut hb_font_t) {
    let Some(calls) = freetype() else {
        return;
    };
    // SAFETY: HarfBuzz's terms: a font that is alive. The blob stays as long as FreeType's face, which gives it back.
    unsafe {
        let source = (*font).face();
        let blob = hb_face_reference_blob(std::ptr::from_ref(source).cast_mut());
        let bytes = (*blob).bytes();
        let (length, index) = (bytes.len() as c_long, c_long::from(source.file_index()));
        let mut face = null_mut();
        if (calls.new_memory_face)(library::library(calls), bytes.as_ptr(), length, index, &raw mut face) != 0 {
            return hb_blob_destroy(blob);
        }
        if (calls.select_charmap)(face, SYMBOL) != 0 {
            (calls.select_charmap)(face, UNICODE);
        }
        (*face).generic.data = blob.cast();
        (*face).generic.finalizer = Some(release_blob);
        set_functions(font, calls, face, true);
        if let Some(held) = held_of(&*font) {
            held.follow(&*font);
        }
    }
}

unsafe extern "C" fn release_blob(face: *mut c_void) {
    // SAFETY: FreeType calls it with its face, which has the blob as its data.
    unsafe { hb_blob_destroy((*face.cast::<library::FaceRecord>()).generic.data.cast()) }
}

#[unsafe(no_mangle)]
pub unsafe extern "C" fn hb_ft_font_get_face(font: *mut hb_font_t) -> Face {
    // SAFETY: HarfBuzz's terms: a font that is alive.
    held_of(unsafe { &*font }).map_or(null_mut(), |held| held.face)
}

#[unsafe(no_mangle)]
pub unsafe extern "C" fn hb_ft_font_lock_face(font: *mut hb_font_t) -> Face {
    // SAFETY: HarfBuzz's terms: a font that is alive.
    match held_of(unsafe { &*font }) {
        Some(held) => {
            held.wait();
            held.face
        }
        None => null_mut(),
    }
}

#[unsafe(no_mangle)]
pub unsafe extern "C" fn hb_ft_font_unlock_face(font: *mut hb_font_t) {
    // SAFETY: HarfBuzz's terms: a font that is alive.
    if let Some(held) = held_of(unsafe { &*font }) {
        held.is_locked.store(false, Ordering::Release);
    }
}

#[unsafe(no_mangle)]
pub unsafe extern "C" fn hb_ft_font_set_load_flags(font: *mut hb_font_t, flags: c_int) {
    // SAFETY: HarfBuzz's terms: a font that is alive.
    let font = unsafe { &*font };
    if let Some(held) = held_of(font)
        && !font.header().is_immutable()
    {
        held.load_flags.set(flags);
    }
}

#[unsafe(no_mangle)]
pub unsafe extern "C" fn hb_ft_font_get_load_flags(font: *mut hb_font_t) -> c_int {
    // SAFETY: HarfBuzz's terms: a font that is alive.
    held_of(unsafe { &*font }).map_or(0, |held| held.load_flags.get())
}

/// The normalized coordinates that are chosen of FreeType's face; none where there are none, or all are 0.
fn coordinates(held: &Held) -> Option<Vec<c_int>> {
    let mut masters = null_mut();
    // SAFETY: the face is alive while the font holds it; room for the coordinate of each axis.
    unsafe {
        if (held.calls.masters)(held.face, &raw mut masters) != 0 {
            return None;
        }
        let mut fixed = vec![0; (*masters).num_axis as usize];
        let error = (held.calls.blend)(held.face, fixed.len() as c_uint, fixed.as_mut_ptr());
        (held.calls.done_masters)((*(*held.face).glyph).library, masters);
        let found: Vec<c_int> = fixed.iter().map(|coordinate| (coordinate >> 2) as c_int).collect();
        (error == 0).then(|| if found.iter().any(|coordinate| *coordinate != 0) { found } else { Vec::new() })
    }
}

#[unsafe(no_mangle)]
pub unsafe extern "C" fn hb_ft_font_changed(font: *mut hb_font_t) {
    // SAFETY: HarfBuzz's terms: a font that is alive, and FreeType's face, which has a size.
    unsafe {
        let Some(held) = held_of(&*font) else {
            return;
        };
        let (face, size) = (&*held.face, &*(*held.face).size);
        let units = i64::from(face.units_per_em);
        let scale = |factor: c_long| ((factor * units + (1 << 15)) >> 16) as c_int;
        crate::font::hb_font_set_scale(font, scale(size.x_scale), scale(size.y_scale));
        if let Some(found) = coordinates(held) {
            crate::font::hb_font_set_var_coords_normalized(font, found.as_ptr(), found.len() as c_uint);
        }
        held.serial.set((*font).serial());
    }
}

#[unsafe(no_mangle)]
pub unsafe extern "C" fn hb_ft_hb_font_changed(font: *mut hb_font_t) -> hb_bool_t {
    // SAFETY: HarfBuzz's terms: a font that is alive.
    let font = unsafe { &*font };
    match held_of(font) {
        Some(held) if held.serial.get() != font.serial() => {
            held.follow(font);
            1
        }
        _ => 0,
    }
}
