//! Steps of runs over a buffer: calls of the probes, and of `shaping_uses`. A function has one of them, whose contract ends
//! with it; what it requires is tested, and one that may be refused has to be done.

use crate::buffer::lists::{clear_output, clear_positions};
use crate::buffer_tests::probes::references::*;
use crate::shaping_uses::in_place::next_in_place;
use vukhaso::internals::buffer::hb_buffer_t;

/// A step of a run.
#[derive(Clone, Copy)]
pub(crate) enum Step {
    // probes of references
    WriteMaskInList(usize),
    SetLevel,
    ForgetWhatWasSaid,
    AdvanceHere,
    AdvanceAt(usize),
    MaskNext(usize),
    MaskOut(usize),
    MaskTwoOut(usize, usize),
    MaskLast,
    // calls of the buffer
    ClearPositions,
    ClearOutput,
    // a use
    NextInPlace,
}

pub(crate) fn make_all(buffer: &mut hb_buffer_t, steps: &[Step]) {
    for step in steps {
        make(buffer, step);
    }
}

fn make(buffer: &mut hb_buffer_t, step: &Step) {
    match *step {
        Step::WriteMaskInList(i) => write_mask(buffer, i),
        Step::SetLevel => set_level(buffer),
        Step::ForgetWhatWasSaid => forget_what_was_said(buffer),
        Step::AdvanceHere => advance_cursor(buffer),
        Step::AdvanceAt(i) => advance_place(buffer, i),
        Step::MaskNext(i) => mask_ahead(buffer, i),
        Step::MaskOut(i) => mask_one(buffer, i),
        Step::MaskTwoOut(i, j) => mask_two(buffer, i, j),
        Step::MaskLast => mask_end(buffer),
        Step::ClearPositions => clear_positions(buffer),
        Step::ClearOutput => clear_output(buffer),
        Step::NextInPlace => next(buffer),
    }
}

fn write_mask(buffer: &mut hb_buffer_t, i: usize) {
    assert!(!buffer.have_output() && i < buffer.info().len());
    write_mask_in_list(buffer, i);
}

fn advance_cursor(buffer: &mut hb_buffer_t) {
    assert!(buffer.have_positions() && buffer.lookahead_len() > 0);
    advance_here(buffer);
}

fn advance_place(buffer: &mut hb_buffer_t, i: usize) {
    assert!(buffer.have_positions() && i < buffer.len());
    advance_at(buffer, i);
}

fn mask_ahead(buffer: &mut hb_buffer_t, i: usize) {
    assert!(i < buffer.lookahead_len());
    mask_next(buffer, i);
}

fn mask_one(buffer: &mut hb_buffer_t, i: usize) {
    assert!(i < buffer.out_len());
    mask_out(buffer, i);
}

fn mask_two(buffer: &mut hb_buffer_t, i: usize, j: usize) {
    assert!(i < buffer.out_len() && j < buffer.out_len());
    mask_two_out(buffer, i, j);
}

fn mask_end(buffer: &mut hb_buffer_t) {
    assert!(buffer.out_len() > 0);
    mask_last(buffer);
}

fn next(buffer: &mut hb_buffer_t) {
    assert!(buffer.lookahead_len() > 0 && !buffer.have_separate_output());
    assert!(next_in_place(buffer) == Ok(true));
}
