//! `hb-vukhaso.h`: what HarfBuzz has not. A list of calls that edit glyphs, over the proved buffer, and room that is made before.

use crate::buffer::{changing, hb_buffer_t, hb_glyph_info_t};
use crate::types::slice;
use std::ffi::c_uint;
use std::ptr::null_mut;
use vukhaso::{AllocError, Answer, BufferFlags, Call, UnicodeBuffer, replay};

/// What came of a call.
#[repr(C)]
#[derive(Clone, Copy, PartialEq)]
pub enum vukhaso_answer_t {
    Done = 0,
    Refused = 1,
    Outside = 2,
    Memory = 3,
    Invalid = 4,
}

use vukhaso_answer_t::{Done, Invalid, Memory, Outside, Refused};

#[repr(C)]
pub struct vukhaso_call_t {
    kind: c_uint,
    first: usize,
    second: usize,
    ids: *const u32,
}

const REPLACE_GLYPHS: c_uint = 3;

/// Glyphs that are edited.
pub struct vukhaso_edit_t {
    glyphs: vukhaso::hb_buffer_t,
}

impl vukhaso_edit_t {
    fn of(buffer: &hb_buffer_t) -> Option<Self> {
        let mut text = UnicodeBuffer::new();
        for info in &buffer.infos {
            text.add('\0', info.cluster).ok().filter(|is_added| *is_added)?;
        }
        let mut glyphs = text.into_buffer();
        glyphs.flags = BufferFlags::from_bits_retain(buffer.flags);
        glyphs.cluster_level = buffer.cluster_level.min(3);
        for (glyph, info) in glyphs.info_slice_mut().iter_mut().zip(&buffer.infos) {
            (glyph.glyph_id, glyph.mask) = (info.codepoint, info.mask);
            (glyph.var1, glyph.var2) = (info.var1, info.var2);
        }
        Some(vukhaso_edit_t { glyphs })
    }

    fn make(&mut self, call: Call<'_>) -> vukhaso_answer_t {
        let mut answers = [Answer::Outside];
        match replay(&mut self.glyphs, &[call], &mut answers) {
            Ok(()) => match answers[0] {
                Answer::Done => Done,
                Answer::Refused => Refused,
                Answer::Outside => Outside,
            },
            Err(_) => Memory,
        }
    }
}

impl vukhaso_call_t {
    /// The call of these numbers; `None` where they name none.
    ///
    /// # Safety
    ///
    /// Behind the ids are as many numbers as the call says.
    unsafe fn call(&self) -> Option<Call<'_>> {
        let (first, second) = (self.first, self.second);
        let place = |number: usize| (number != usize::MAX).then_some(number);
        Some(match self.kind {
            0 => Call::ClearOutput,
            1 => Call::NextGlyphs(first),
            2 => Call::SkipGlyph,
            REPLACE_GLYPHS if self.ids.is_null() && second > 0 => return None,
            // SAFETY: the caller's word.
            REPLACE_GLYPHS => Call::ReplaceGlyphs(first, second, unsafe { slice(self.ids, second) }),
            4 => Call::OutputGlyph(u32::try_from(first).ok()?),
            5 => Call::CopyGlyph,
            6 => Call::MoveTo(first),
            7 => Call::Sync,
            8 => Call::DeleteGlyph,
            9 => Call::MergeClusters(first, second),
            10 => Call::MergeOutClusters(first, second),
            11 => Call::MergeGraphemeClusters(first, second),
            12 => Call::UnsafeToBreak(place(first), place(second)),
            13 => Call::UnsafeToBreakFromOutbuffer(place(first), place(second)),
            14 => Call::SafeToInsertTatweel(place(first), place(second)),
            15 => Call::UnsafeToConcat(place(first), place(second)),
            16 => Call::UnsafeToConcatFromOutbuffer(place(first), place(second)),
            _ => return None,
        })
    }
}

#[unsafe(no_mangle)]
pub unsafe extern "C" fn vukhaso_edit_create(buffer: *const hb_buffer_t) -> *mut vukhaso_edit_t {
    // SAFETY: HarfBuzz's terms: a buffer that is alive.
    let edit = vukhaso_edit_t::of(unsafe { &*buffer });
    edit.map_or(null_mut(), |edit| Box::into_raw(Box::new(edit)))
}

#[unsafe(no_mangle)]
pub unsafe extern "C" fn vukhaso_edit_destroy(edit: *mut vukhaso_edit_t) {
    if !edit.is_null() {
        // SAFETY: `vukhaso_edit_create` made it of a box, and the caller gives it up.
        drop(unsafe { Box::from_raw(edit) });
    }
}

#[unsafe(no_mangle)]
pub unsafe extern "C" fn vukhaso_edit_ensure(edit: *mut vukhaso_edit_t, size: usize) -> vukhaso_answer_t {
    // SAFETY: the header's terms: glyphs that are edited, which nobody else uses.
    match unsafe { &mut *edit }.glyphs.ensure(size) {
        Ok(true) => Done,
        Ok(false) => Refused,
        Err(AllocError) => Memory,
    }
}

#[unsafe(no_mangle)]
pub unsafe extern "C" fn vukhaso_edit_replay(
    edit: *mut vukhaso_edit_t,
    calls: *const vukhaso_call_t,
    count: usize,
    answers: *mut vukhaso_answer_t,
) -> vukhaso_answer_t {
    // SAFETY: the header's terms: as above; so many calls, with as many ids as each says, and room for so many answers.
    unsafe {
        let edit = &mut *edit;
        for (place, call) in slice(calls, count).iter().enumerate() {
            let answer = call.call().map_or(Invalid, |call| edit.make(call));
            answers.add(place).write(answer);
            if answer == Memory {
                return Memory;
            }
        }
    }
    Done
}

#[unsafe(no_mangle)]
pub unsafe extern "C" fn vukhaso_edit_put(edit: *const vukhaso_edit_t, buffer: *mut hb_buffer_t) -> vukhaso_answer_t {
    // SAFETY: the header's terms: glyphs that are edited, and a buffer that nobody else uses.
    let (edit, buffer) = unsafe { (&*edit, changing(buffer)) };
    let Some(buffer) = buffer else {
        return Invalid;
    };
    if edit.glyphs.have_output() {
        return Outside;
    }
    let info = |info: &vukhaso::hb_glyph_info_t| hb_glyph_info_t {
        codepoint: info.glyph_id,
        mask: info.mask,
        cluster: info.cluster,
        var1: info.var1,
        var2: info.var2,
    };
    buffer.infos = edit.glyphs.info().iter().map(info).collect();
    buffer.have_positions = false;
    Done
}
