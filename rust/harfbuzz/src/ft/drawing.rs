//! Drawing the outlines of glyphs that FreeType loads.

use crate::draw::hb_draw_funcs_t;
use crate::font::hb_font_t;
use crate::ft::library::{NO_BITMAP, OUTLINE, Outline, OutlineFunctions, Vector};
use crate::ft::{Held, Locked};
use crate::outline::{Point, Segment};
use crate::types::{hb_codepoint_t, slice_mut};
use std::ffi::{c_int, c_void};

pub unsafe extern "C" fn draw_glyph(
    font: *mut hb_font_t,
    held: *mut c_void,
    glyph: hb_codepoint_t,
    functions: *mut hb_draw_funcs_t,
    data: *mut c_void,
    _: *mut c_void,
) {
    // SAFETY: a font with this function is alive, and has such data; HarfBuzz's terms for the functions.
    let (font, held, functions) = unsafe { (&*font, &*held.cast::<Held>(), &*functions) };
    // The face is given free before the caller's functions are called.
    let path = path_of(font, &held.lock(), glyph);
    let slant = font.slant_across();
    let slanted = |point: Point| Point { x: if slant == 0.0 { point.x } else { point.x + point.y * slant }, y: point.y };
    let path: Vec<Segment> = path.into_iter().map(|part| part.mapped(slanted)).collect();
    functions.draw_path(data, &path);
}

/// The path of a glyph as FreeType loads it; an empty one where it is no outline.
fn path_of(font: &hb_font_t, held: &Locked, glyph: hb_codepoint_t) -> Vec<Segment> {
    let mut path = Vec::new();
    // SAFETY: the face is alive while the font holds it, and its slot is filled where there is no error. FreeType calls the functions
    // below with the address of the path.
    unsafe {
        let error = (held.calls.load_glyph)(held.face, glyph, NO_BITMAP | held.load_flags);
        let slot = (*held.face).glyph;
        if error == 0 && (*slot).format == OUTLINE {
            let outline = &raw mut (*slot).outline;
            embolden(font, held, outline);
            let functions = OutlineFunctions { move_to, line_to, conic_to, cubic_to, shift: 0, delta: 0 };
            (held.calls.decompose)(outline, &raw const functions, (&raw mut path).cast());
        }
    }
    path
}

/// Makes an outline bolder.
///
/// # Safety
///
/// `outline` is that of a slot that is filled.
unsafe fn embolden(font: &hb_font_t, held: &Locked, outline: *mut Outline) {
    let ((x, y, in_place), (x_scale, y_scale)) = (font.strength(), font.scale());
    if (x, y) == (0, 0) {
        return;
    }
    // FreeType moves the outline to the right and up by the strength, also where the scale is negative.
    let across = if in_place {
        -x / 2
    } else if x_scale < 0 {
        -x
    } else {
        0
    };
    let upwards = if y_scale < 0 { -y } else { 0 };
    // SAFETY: the caller's word: an outline, which has so many points.
    unsafe {
        (held.calls.embolden)(outline, x.into(), y.into());
        for point in slice_mut((*outline).points, (*outline).n_points.max(0) as usize) {
            point.x += std::ffi::c_long::from(across);
            point.y += std::ffi::c_long::from(upwards);
        }
    }
}

/// Adds a part to the path that FreeType was passed.
///
/// # Safety
///
/// `path` is the address that `path_of` passes, and the points are FreeType's.
unsafe fn add<const COUNT: usize>(
    path: *mut c_void,
    points: [*const Vector; COUNT],
    part: fn([Point; COUNT]) -> Segment,
) -> c_int {
    // SAFETY: the caller's word.
    let points = points.map(|point| unsafe { Point { x: (*point).x as f32, y: (*point).y as f32 } });
    // SAFETY: as above.
    unsafe { &mut *path.cast::<Vec<Segment>>() }.push(part(points));
    0
}

unsafe extern "C" fn move_to(end: *const Vector, path: *mut c_void) -> c_int {
    // SAFETY: FreeType's points, and the path that it was passed.
    unsafe { add(path, [end], |[end]| Segment::Move(end)) }
}

unsafe extern "C" fn line_to(end: *const Vector, path: *mut c_void) -> c_int {
    // SAFETY: as above.
    unsafe { add(path, [end], |[end]| Segment::Line(end)) }
}

unsafe extern "C" fn conic_to(control: *const Vector, end: *const Vector, path: *mut c_void) -> c_int {
    // SAFETY: as above.
    unsafe { add(path, [control, end], |[control, end]| Segment::Quadratic(control, end)) }
}

unsafe extern "C" fn cubic_to(first: *const Vector, second: *const Vector, end: *const Vector, path: *mut c_void) -> c_int {
    // SAFETY: as above.
    unsafe { add(path, [first, second, end], |[first, second, end]| Segment::Cubic(first, second, end)) }
}
