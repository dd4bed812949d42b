//! Drawing the outlines of a font's glyphs.

use crate::draw::{Slots as DrawSlots, hb_draw_funcs_t, hb_draw_state_t};
use crate::font::functions::{DrawGlyph, Slot, hb_font_funcs_set_draw_glyph_func, hb_font_funcs_t};
use crate::font::hb_font_t;
use crate::object::Empty;
use crate::outline::{Point, Segment, embolden, path_of};
use crate::types::{hb_codepoint_t, hb_destroy_func_t};
use std::ffi::c_void;
use std::ptr::from_ref;

/// Where the outlines of a font's parent go: to functions that draw them at the font's size.
struct Adaptor<'a> {
    functions: &'a hb_draw_funcs_t,
    data: *mut c_void,
    times: Point,
    slant: f32,
}

impl Adaptor<'_> {
    fn point(&self, x: f32, y: f32) -> Point {
        Point { x: self.times.x * x + self.slant * y, y: self.times.y * y }
    }

    /// Hands a part of a path on, with where it begins.
    fn emit(&self, state: &mut hb_draw_state_t, part: Segment) {
        if !matches!(part, Segment::Move(_) | Segment::Close) {
            let from = self.point(state.current_x, state.current_y);
            (state.current_x, state.current_y) = (from.x, from.y);
        }
        self.functions.emit(self.data, state, part);
    }
}

/// What a function of an adaptor is passed.
///
/// # Safety
///
/// `data` is an adaptor, and `state` that of a path, which nobody else uses.
unsafe fn adapted<'a>(data: *mut c_void, state: *mut hb_draw_state_t) -> (&'a Adaptor<'a>, &'a mut hb_draw_state_t) {
    // SAFETY: the caller's word.
    unsafe { (&*data.cast(), &mut *state) }
}

type Functions = *mut hb_draw_funcs_t;
type Data = *mut c_void;
type State = *mut hb_draw_state_t;

unsafe extern "C" fn move_to(_: Functions, data: Data, state: State, x: f32, y: f32, _: Data) {
    // SAFETY: `draw_parent` passes an adaptor to these functions.
    let (adaptor, state) = unsafe { adapted(data, state) };
    adaptor.emit(state, Segment::Move(adaptor.point(x, y)));
}

unsafe extern "C" fn line_to(_: Functions, data: Data, state: State, x: f32, y: f32, _: Data) {
    // SAFETY: as above.
    let (adaptor, state) = unsafe { adapted(data, state) };
    adaptor.emit(state, Segment::Line(adaptor.point(x, y)));
}

unsafe extern "C" fn quadratic_to(
    _: Functions,
    data: Data,
    state: State,
    control_x: f32,
    control_y: f32,
    x: f32,
    y: f32,
    _: Data,
) {
    // SAFETY: as above.
    let (adaptor, state) = unsafe { adapted(data, state) };
    adaptor.emit(state, Segment::Quadratic(adaptor.point(control_x, control_y), adaptor.point(x, y)));
}

unsafe extern "C" fn cubic_to(
    _: Functions,
    data: Data,
    state: State,
    first_x: f32,
    first_y: f32,
    second_x: f32,
    second_y: f32,
    x: f32,
    y: f32,
    _: Data,
) {
    // SAFETY: as above.
    let (adaptor, state) = unsafe { adapted(data, state) };
    let (first, second) = (adaptor.point(first_x, first_y), adaptor.point(second_x, second_y));
    adaptor.emit(state, Segment::Cubic(first, second, adaptor.point(x, y)));
}

unsafe extern "C" fn close_path(_: Functions, data: Data, state: State, _: Data) {
    // SAFETY: as above.
    let (adaptor, state) = unsafe { adapted(data, state) };
    adaptor.emit(state, Segment::Close);
}

/// The functions that an adaptor is passed to.
fn adaptor_functions() -> *mut hb_draw_funcs_t {
    static FUNCTIONS: Empty<hb_draw_funcs_t> = Empty::new();
    FUNCTIONS.get(|| {
        hb_draw_funcs_t::fixed(DrawSlots {
            move_to: Slot::of(move_to),
            line_to: Slot::of(line_to),
            quadratic_to: Slot::of(quadratic_to),
            cubic_to: Slot::of(cubic_to),
            close_path: Slot::of(close_path),
        })
    })
}

impl hb_font_t {
    /// Draws a glyph by the font's own function, or else as the parent has it, at the font's size.
    fn draw_glyph(&self, glyph: hb_codepoint_t, functions: &hb_draw_funcs_t, data: *mut c_void) {
        if let Some(slot) = self.functions().slots.draw_glyph.get() {
            let (own, _) = self.functions_data();
            let functions = from_ref(functions).cast_mut();
            // SAFETY: the caller of the interface gave the function, for fonts of this kind, with the data that it is passed.
            unsafe { (slot.function)(from_ref(self).cast_mut(), own, glyph, functions, data, slot.user_data) }
        } else if let Some(parent) = self.parent_font() {
            self.draw_parent(parent, glyph, functions, data);
        }
    }

    fn draw_parent(&self, parent: &hb_font_t, glyph: hb_codepoint_t, functions: &hb_draw_funcs_t, data: *mut c_void) {
        let ((x, y), (parent_x, parent_y)) = (self.scale(), parent.scale());
        let part = |length: i32, whole: i32| if whole == 0 { 0.0 } else { length as f32 / whole as f32 };
        let slant = if parent_y == 0 { 0.0 } else { (self.slant() - parent.slant()) * x as f32 / parent_y as f32 };
        let adaptor = Adaptor { functions, data, times: Point { x: part(x, parent_x), y: part(y, parent_y) }, slant };
        // SAFETY: these functions are never freed.
        let functions = unsafe { &*adaptor_functions() };
        parent.draw_glyph(glyph, functions, (&raw const adaptor).cast_mut().cast());
    }
}

/// Draws a glyph as the tables of its font have it.
pub unsafe extern "C" fn draw_glyph(
    font: *mut hb_font_t,
    _: *mut c_void,
    glyph: hb_codepoint_t,
    functions: *mut hb_draw_funcs_t,
    data: *mut c_void,
    _: *mut c_void,
) {
    // SAFETY: `hb_font_t::draw_glyph` and callers of the interface pass objects that are alive.
    let (font, functions) = unsafe { (&*font, &*functions) };
    let slant = font.slant_across();
    let slanted = |point: Point| Point { x: point.x + point.y * slant, y: point.y };
    let path: Vec<Segment> =
        path_of(font, glyph).into_iter().map(|part| if slant == 0.0 { part } else { part.mapped(slanted) }).collect();
    functions.draw_path(data, &bolder(font, path));
}

fn bolder(font: &hb_font_t, path: Vec<Segment>) -> Vec<Segment> {
    let (x, y, in_place) = font.strength();
    if (x, y) == (0, 0) {
        return path;
    }
    let half = |strength: i32, scale: i32| if scale < 0 { -(strength as f32 / 2.0) } else { strength as f32 / 2.0 };
    let shift = Point { x: if in_place { 0.0 } else { half(x, font.scale().0) }, y: half(y, font.scale().1) };
    embolden(&closed(path), Point { x: x as f32, y: y as f32 }, shift)
}

/// A path as it is drawn: without moves from which nothing is drawn, and with the lines that close it.
fn closed(path: Vec<Segment>) -> Vec<Segment> {
    let mut drawn: Vec<Segment> = Vec::new();
    let (mut start, mut at) = (None, Point::default());
    for part in path.into_iter().chain([Segment::Close]) {
        let end = part.end();
        if let Some(start) = start.filter(|_| matches!(part, Segment::Move(_) | Segment::Close)) {
            if start != at {
                drawn.push(Segment::Line(start));
            }
            drawn.push(Segment::Close);
        }
        if matches!(part, Segment::Move(_) | Segment::Close) {
            start = None;
        } else {
            if start.is_none() {
                drawn.push(Segment::Move(at));
                start = Some(at);
            }
            drawn.push(part);
        }
        at = end;
    }
    drawn
}

#[unsafe(no_mangle)]
pub unsafe extern "C" fn hb_font_draw_glyph(
    font: *mut hb_font_t,
    glyph: hb_codepoint_t,
    functions: *mut hb_draw_funcs_t,
    data: *mut c_void,
) {
    // SAFETY: HarfBuzz's terms: a font and functions that are alive.
    unsafe { (*font).draw_glyph(glyph, &*functions, data) }
}

#[unsafe(no_mangle)]
pub unsafe extern "C" fn hb_font_get_glyph_shape(
    font: *mut hb_font_t,
    glyph: hb_codepoint_t,
    functions: *mut hb_draw_funcs_t,
    data: *mut c_void,
) {
    // SAFETY: as above.
    unsafe { hb_font_draw_glyph(font, glyph, functions, data) }
}

#[unsafe(no_mangle)]
pub unsafe extern "C" fn hb_font_funcs_set_glyph_shape_func(
    functions: *mut hb_font_funcs_t,
    function: Option<DrawGlyph>,
    user_data: *mut c_void,
    destroy: hb_destroy_func_t,
) {
    // SAFETY: as above.
    unsafe { hb_font_funcs_set_draw_glyph_func(functions, function, user_data, destroy) }
}
