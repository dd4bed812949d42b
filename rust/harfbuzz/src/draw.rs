//! `hb-draw.h`: functions that draw the outlines of glyphs.

use crate::font::functions::functions;
use crate::object::{Empty, Header, Object, given, object_calls};
use crate::outline::{Point, Segment};
use crate::types::hb_bool_t;
use std::ffi::c_void;
use std::ptr::from_ref;

/// Where a path stands: the functions may look at it.
#[repr(C)]
#[derive(Default)]
pub struct hb_draw_state_t {
    path_open: hb_bool_t,
    path_start_x: f32,
    path_start_y: f32,
    pub current_x: f32,
    pub current_y: f32,
    reserved: [u32; 7],
}

type Functions = *mut hb_draw_funcs_t;
type Data = *mut c_void;
type State = *mut hb_draw_state_t;
pub type To = unsafe extern "C" fn(Functions, Data, State, f32, f32, Data);
pub type QuadraticTo = unsafe extern "C" fn(Functions, Data, State, f32, f32, f32, f32, Data);
pub type CubicTo = unsafe extern "C" fn(Functions, Data, State, f32, f32, f32, f32, f32, f32, Data);
pub type ClosePath = unsafe extern "C" fn(Functions, Data, State, Data);

functions! {
    hb_draw_funcs_t;
    move_to: To, hb_draw_funcs_set_move_to_func;
    line_to: To, hb_draw_funcs_set_line_to_func;
    quadratic_to: QuadraticTo, hb_draw_funcs_set_quadratic_to_func;
    cubic_to: CubicTo, hb_draw_funcs_set_cubic_to_func;
    close_path: ClosePath, hb_draw_funcs_set_close_path_func;
}

pub struct hb_draw_funcs_t {
    header: Header,
    slots: Slots,
}

impl Drop for hb_draw_funcs_t {
    fn drop(&mut self) {
        self.slots.release();
    }
}

impl Object for hb_draw_funcs_t {
    fn header(&self) -> &Header {
        &self.header
    }

    fn empty() -> *mut Self {
        static EMPTY: Empty<hb_draw_funcs_t> = Empty::new();
        EMPTY.get(|| hb_draw_funcs_t::fixed(Slots::default()))
    }
}

object_calls!(hb_draw_funcs_t: hb_draw_funcs_get_empty hb_draw_funcs_reference hb_draw_funcs_destroy hb_draw_funcs_set_user_data hb_draw_funcs_get_user_data);

#[unsafe(no_mangle)]
pub extern "C" fn hb_draw_funcs_create() -> *mut hb_draw_funcs_t {
    given(hb_draw_funcs_t { header: Header::new(), slots: Slots::default() })
}

#[unsafe(no_mangle)]
pub unsafe extern "C" fn hb_draw_funcs_make_immutable(functions: *mut hb_draw_funcs_t) {
    // SAFETY: HarfBuzz's terms: a set of functions that is alive.
    unsafe { &*functions }.header.make_immutable();
}

#[unsafe(no_mangle)]
pub unsafe extern "C" fn hb_draw_funcs_is_immutable(functions: *mut hb_draw_funcs_t) -> hb_bool_t {
    // SAFETY: HarfBuzz's terms: a set of functions that is alive.
    unsafe { &*functions }.header.is_immutable().into()
}

/// Calls a function, if it is set.
macro_rules! call {
    ($functions:ident, $field:ident, $data:ident, $state:expr $(, $argument:expr)*) => {
        if let Some(slot) = $functions.slots.$field.get() {
            // SAFETY: the caller of the interface gave the function, for such data, with the data that it is passed.
            unsafe { (slot.function)(from_ref($functions).cast_mut(), $data, $state $(, $argument)*, slot.user_data) }
        }
    };
}

impl hb_draw_funcs_t {
    /// The functions that are never freed nor changed.
    pub fn fixed(slots: Slots) -> Self {
        hb_draw_funcs_t { header: Header::of_empty(), slots }
    }

    /// Hands a part of a path on as it is.
    pub fn emit(&self, data: *mut c_void, state: &mut hb_draw_state_t, part: Segment) {
        match part {
            Segment::Move(end) => call!(self, move_to, data, state, end.x, end.y),
            Segment::Line(end) => call!(self, line_to, data, state, end.x, end.y),
            Segment::Quadratic(control, end) if self.slots.quadratic_to.get().is_none() => {
                let from = Point { x: state.current_x, y: state.current_y };
                self.emit(data, state, as_cubic(from, control, end));
            }
            Segment::Quadratic(control, end) => {
                call!(self, quadratic_to, data, state, control.x, control.y, end.x, end.y);
            }
            Segment::Cubic(first, second, end) => {
                call!(self, cubic_to, data, state, first.x, first.y, second.x, second.y, end.x, end.y);
            }
            Segment::Close => call!(self, close_path, data, state),
        }
    }

    /// Draws a part of a path: a move shows when something is drawn from there, and closes what was drawn before it.
    pub fn draw(&self, data: *mut c_void, state: &mut hb_draw_state_t, part: Segment) {
        let end = match part {
            Segment::Close => return self.close(data, state),
            Segment::Move(end) => {
                if state.path_open != 0 {
                    self.close(data, state);
                }
                end
            }
            Segment::Line(end) | Segment::Quadratic(_, end) | Segment::Cubic(_, _, end) => {
                if state.path_open == 0 {
                    self.emit(data, state, Segment::Move(Point { x: state.current_x, y: state.current_y }));
                    state.path_open = 1;
                    (state.path_start_x, state.path_start_y) = (state.current_x, state.current_y);
                }
                self.emit(data, state, part);
                end
            }
        };
        (state.current_x, state.current_y) = (end.x, end.y);
    }

    /// Closes a path, by a line where it did not end at its start.
    fn close(&self, data: *mut c_void, state: &mut hb_draw_state_t) {
        if state.path_open != 0 {
            let start = Point { x: state.path_start_x, y: state.path_start_y };
            if start != (Point { x: state.current_x, y: state.current_y }) {
                self.emit(data, state, Segment::Line(start));
            }
            self.emit(data, state, Segment::Close);
        }
        *state = hb_draw_state_t { reserved: state.reserved, ..Default::default() };
    }

    /// Draws a whole path, and closes it.
    pub fn draw_path(&self, data: *mut c_void, path: &[Segment]) {
        let mut state = hb_draw_state_t::default();
        for &part in path {
            self.draw(data, &mut state, part);
        }
        self.close(data, &mut state);
    }
}

/// The cubic curve that a quadratic one is.
fn as_cubic(from: Point, control: Point, end: Point) -> Segment {
    const THIRD: f32 = 0.333_333_33;
    let toward = |end: Point| Point { x: (end.x + 2.0 * control.x) * THIRD, y: (end.y + 2.0 * control.y) * THIRD };
    Segment::Cubic(toward(from), toward(end), end)
}

/// The calls that draw a part of a path.
macro_rules! parts {
    ($($call:ident($($argument:ident),*) $part:expr;)*) => {
        $(
            #[unsafe(no_mangle)]
            pub unsafe extern "C" fn $call(
                functions: *mut hb_draw_funcs_t,
                data: *mut c_void,
                state: *mut hb_draw_state_t,
                $($argument: f32),*
            ) {
                // SAFETY: HarfBuzz's terms: functions that are alive, and a state of the caller's.
                unsafe { (*functions).draw(data, &mut *state, $part) }
            }
        )*
    };
}

parts! {
    hb_draw_move_to(x, y) Segment::Move(Point { x, y });
    hb_draw_line_to(x, y) Segment::Line(Point { x, y });
    hb_draw_quadratic_to(control_x, control_y, x, y) Segment::Quadratic(Point { x: control_x, y: control_y }, Point { x, y });
    hb_draw_cubic_to(first_x, first_y, second_x, second_y, x, y) Segment::Cubic(
        Point { x: first_x, y: first_y },
        Point { x: second_x, y: second_y },
        Point { x, y },
    );
    hb_draw_close_path() Segment::Close;
}
