//! Telling the listener of a buffer of each step of shaping.
//!
//! The listener is told when a step is done, and sees the items of the buffer as the step left them. HarfBuzz also tells before a step,
//! and leaves the step out where the function says so; here a step is done whatever it answers.

use crate::buffer::{GLYPHS, UNICODE, hb_buffer_message_func_t, hb_buffer_t};
use crate::font::hb_font_t;
use crate::shape::Shaped;
use std::ffi::{CString, c_void};
use std::ptr::from_ref;
use vukhaso::AllocError;
use vukhaso::internals::ot_shape::{Step, Watch};

type Function = unsafe extern "C" fn(*mut hb_buffer_t, *mut hb_font_t, *const std::ffi::c_char, *mut c_void) -> i32;

pub struct Telling {
    function: Function,
    data: *mut c_void,
    buffer: *mut hb_buffer_t,
    font: *mut hb_font_t,
}

// The type of the interface and that of this module are one.
const _: fn(Function) -> hb_buffer_message_func_t = Some;

impl Telling {
    pub fn new(function: Function, data: *mut c_void, buffer: *mut hb_buffer_t, font: &hb_font_t) -> Self {
        Telling { function, data, buffer, font: from_ref(font).cast_mut() }
    }
}

fn message(step: Step) -> String {
    match step {
        Step::Characters => "end normalize".to_owned(),
        Step::Glyphs => "end map glyphs".to_owned(),
        Step::Substituted(lookup) | Step::Positioned(lookup) => format!("end lookup {lookup}"),
        Step::Advances => "end position".to_owned(),
        Step::Kerned => "end table kern".to_owned(),
        Step::Shaped => "end shape".to_owned(),
    }
}

impl Watch for Telling {
    fn step(&mut self, step: Step, buffer: &vukhaso::hb_buffer_t) -> Result<(), AllocError> {
        let positions = if buffer.have_positions() { buffer.pos() } else { &[] };
        let shaped = Shaped::of(buffer.info(), positions);
        let message = CString::new(message(step)).unwrap_or_default();
        // SAFETY: `shape_text` passes a buffer and a font that are alive, and holds no reference of the buffer while it shapes.
        unsafe {
            (*self.buffer).infos = shaped.infos;
            (*self.buffer).positions = shaped.positions;
            (*self.buffer).have_positions = buffer.have_positions();
            (*self.buffer).content_type = if matches!(step, Step::Characters) { UNICODE } else { GLYPHS };
            (*self.buffer).message_depth += 1;
            (self.function)(self.buffer, self.font, message.as_ptr(), self.data);
            (*self.buffer).message_depth -= 1;
        }
        Ok(())
    }
}
