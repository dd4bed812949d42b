//! Steps of runs over a buffer: calls of `shaping_uses` and of the buffer. What a step requires is
//! tested, and one that may be refused has to be done.

use crate::buffer::lists::clear_output;
use crate::shaping_uses::deletion::delete_every_second;
use crate::shaping_uses::in_place::*;
use crate::shaping_uses::ligature::ligate;
use crate::shaping_uses::room::{put_marks, put_marks_within_room};
use vukhaso::internals::buffer::hb_buffer_t;

/// A step of a run.
#[derive(Clone, Copy)]
pub(crate) enum Step {
    // calls of the buffer
    ClearOutput,
    SkipGlyph,
    Ensure(usize),
    // uses
    NextInPlace,
    ReplaceInPlace(u32),
    NextGlyphsInPlace(usize),
    MoveInPlace(usize),
    SyncInPlace,
    PutMarks(u32),
    PutMarksWithinRoom(u32),
    Ligate,
    DeleteEverySecond,
}

pub(crate) fn make_all(buffer: &mut hb_buffer_t, steps: &[Step]) {
    for step in steps {
        make(buffer, step);
    }
}

fn make(buffer: &mut hb_buffer_t, step: &Step) {
    match *step {
        Step::ClearOutput => clear_output(buffer),
        Step::SkipGlyph => skip_glyph(buffer),
        Step::Ensure(size) => ensure(buffer, size),
        Step::NextInPlace => next(buffer),
        Step::ReplaceInPlace(id) => replace(buffer, id),
        Step::NextGlyphsInPlace(n) => next_glyphs(buffer, n),
        Step::MoveInPlace(place) => move_to(buffer, place),
        Step::SyncInPlace => sync(buffer),
        Step::PutMarks(mark) => put(buffer, mark),
        Step::PutMarksWithinRoom(mark) => put_within_room(buffer, mark),
        Step::Ligate => ligate_all(buffer),
        Step::DeleteEverySecond => delete_half(buffer),
    }
}

fn skip_glyph(buffer: &mut hb_buffer_t) {
    assert!(buffer.lookahead_len() > 0);
    buffer.skip_glyph();
}

fn ensure(buffer: &mut hb_buffer_t, size: usize) {
    assert!(buffer.ensure(size) == Ok(true));
}

fn next(buffer: &mut hb_buffer_t) {
    assert!(buffer.lookahead_len() > 0 && !buffer.have_separate_output());
    assert!(next_in_place(buffer) == Ok(true));
}

fn replace(buffer: &mut hb_buffer_t, id: u32) {
    assert!(buffer.have_output() && buffer.lookahead_len() > 0);
    assert!(!buffer.have_separate_output());
    assert!(replace_in_place(buffer, id) == Ok(true));
}

fn next_glyphs(buffer: &mut hb_buffer_t, n: usize) {
    assert!(n <= buffer.lookahead_len() && !buffer.have_separate_output());
    assert!(next_glyphs_in_place(buffer, n) == Ok(true));
}

fn move_to(buffer: &mut hb_buffer_t, place: usize) {
    assert!(buffer.have_output() && place <= buffer.out_len());
    assert!(buffer.successful() && !buffer.have_separate_output());
    assert!(move_in_place(buffer, place) == Ok(true));
}

fn sync(buffer: &mut hb_buffer_t) {
    assert!(buffer.have_output() && buffer.successful());
    assert!(!buffer.have_separate_output());
    assert!(sync_in_place(buffer) == Ok(true));
}

fn put(buffer: &mut hb_buffer_t, mark: u32) {
    assert!(!buffer.have_output() && buffer.successful());
    assert!(put_marks(buffer, mark) == Ok(true));
}

fn put_within_room(buffer: &mut hb_buffer_t, mark: u32) {
    assert!(!buffer.have_output() && buffer.successful());
    assert!(buffer.info().len() == 4 && buffer.room() >= 8 && buffer.max_len() >= 8);
    assert!(put_marks_within_room(buffer, mark) == Ok(true));
}

fn ligate_all(buffer: &mut hb_buffer_t) {
    assert!(!buffer.have_output() && buffer.successful());
    assert!(ligate(buffer) == Ok(true));
}

fn delete_half(buffer: &mut hb_buffer_t) {
    assert!(!buffer.have_output() && buffer.successful());
    assert!(delete_every_second(buffer) == Ok(true));
}
