use crate::buffer::lists::{buffer_of, clear_output};
use crate::buffer::write_steps::{Step, make_all};
use crate::buffer_tests::probes::accessors::*;
use vukhaso::internals::buffer::{UnicodeBuffer, hb_buffer_t, hb_glyph_info_t};

fn assert_masks(glyphs: &[hb_glyph_info_t], want: &[u32]) {
    assert!(glyphs.len() == want.len());
    for (glyph, mask) in glyphs.iter().zip(want) {
        assert!(glyph.mask == *mask, "{want:?}");
    }
}

fn assert_advances(buffer: &hb_buffer_t, want: &[i32]) {
    assert!(buffer.have_positions());
    assert!(buffer.pos().len() == want.len());
    for (position, advance) in buffer.pos().iter().zip(want) {
        assert!(position.x_advance == *advance, "{want:?}");
    }
}

const WRITES_IN_LIST: &[Step] = &[
    Step::WriteMaskInList(2),
    Step::SetLevel,
    Step::ForgetWhatWasSaid,
    Step::ClearPositions,
    Step::AdvanceHere,
    Step::AdvanceAt(1),
];

const WRITES_IN_OUTPUT: &[Step] = &[
    Step::ClearOutput,
    Step::MaskNext(1),
    Step::NextInPlace,
    Step::MaskOut(0),
    Step::MaskTwoOut(0, 0),
    Step::MaskLast,
];

#[test]
fn writes_land_at_their_places() {
    let mut buffer = buffer_of("abc");
    make_all(&mut buffer, WRITES_IN_LIST);
    assert_advances(&buffer, &[5, 5, 0]);
    make_all(&mut buffer, WRITES_IN_OUTPUT);
    assert_masks(buffer.out_info(), &[5]);
    assert_masks(buffer.info(), &[5, 5]);
    assert!(buffer.cluster_level == 2);
}

#[test]
fn a_new_buffer_has_limits() {
    assert!(default_glyph_limit() == 0x3FFF_FFFF);
    assert!(default_operation_limit() == 0x1FFF_FFFF);
}

fn buffer_with_context() -> hb_buffer_t {
    let mut text = UnicodeBuffer::new();
    text.set_pre_context("abcdefg");
    text.set_post_context("ab");
    text.into_buffer()
}

fn assert_nothing_out(buffer: &hb_buffer_t) {
    assert!(!buffer.have_output());
    assert!(out_len_while_closed(buffer) == 0);
}

fn assert_no_positions(buffer: &hb_buffer_t) {
    assert!(buffer.have_output());
    assert!(!have_positions_while_open(buffer));
}

#[test]
fn accessors_say_what_stands() {
    let mut buffer = buffer_with_context();
    assert!(context_len(&buffer) == 7);
    assert_nothing_out(&buffer);
    clear_output(&mut buffer);
    assert_no_positions(&buffer);
}
