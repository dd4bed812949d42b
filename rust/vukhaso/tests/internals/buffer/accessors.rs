use crate::buffer::lists::{assert_ids, buffer_of, clear_positions, read_one};
use vukhaso::internals::buffer::hb_buffer_t;

/// `len`, `out_len`, `idx`, `backtrack_len` and `lookahead_len`.
fn assert_counts(buffer: &hb_buffer_t, want: [usize; 5]) {
    let counts = [
        buffer.len(),
        buffer.out_len(),
        buffer.idx(),
        buffer.backtrack_len(),
        buffer.lookahead_len(),
    ];
    assert!(counts == want);
}

/// `is_empty`, `have_output`, `have_positions` and `successful`.
fn assert_states(buffer: &hb_buffer_t, want: [bool; 4]) {
    let states = [
        buffer.is_empty(),
        buffer.have_output(),
        buffer.have_positions(),
        buffer.successful(),
    ];
    assert!(states == want);
}

/// The text "abc" in capitals, with an advance along the line at the cursor and one down at each glyph.
fn capitals() -> hb_buffer_t {
    let mut buffer = buffer_of("abc");
    capitalize(&mut buffer);
    clear_positions(&mut buffer);
    buffer
}

fn capitalize(buffer: &mut hb_buffer_t) {
    assert!(!buffer.have_output());
    for glyph in buffer.info_slice_mut() {
        glyph.glyph_id = glyph.glyph_id.wrapping_sub(32);
    }
}

fn set_x_advance(buffer: &mut hb_buffer_t) {
    assert!(buffer.have_positions() && buffer.lookahead_len() > 0);
    buffer.cur_pos_mut().x_advance = 3;
}

fn set_y_advances(buffer: &mut hb_buffer_t) {
    assert!(buffer.have_positions());
    for position in buffer.pos_mut() {
        position.y_advance = 4;
    }
}

fn assert_advances(buffer: &hb_buffer_t) {
    assert!(buffer.have_positions());
    for (position, x) in buffer.pos().iter().zip(&[3, 0, 0]) {
        assert!((position.x_advance, position.y_advance) == (*x, 4));
    }
}

/// Writes a mask into each glyph that was put out.
fn write_masks(buffer: &mut hb_buffer_t) {
    for glyph in buffer.out_info_mut() {
        glyph.mask = 9;
    }
}

fn write_last(buffer: &mut hb_buffer_t) {
    assert!(buffer.out_len() > 0);
    buffer.prev_mut().glyph_id = 5;
}

/// Writes an id into the glyph after the next.
fn write_ahead(buffer: &mut hb_buffer_t) {
    assert!(buffer.lookahead_len() > 1);
    buffer.cur_mut(1).glyph_id = 6;
}

fn assert_single(buffer: &hb_buffer_t, prev: (u32, u32), next: u32) {
    assert!(buffer.lookahead_len() > 1 && buffer.out_len() > 0);
    assert!((buffer.prev().glyph_id, buffer.prev().mask) == prev);
    assert!(buffer.cur(1).glyph_id == next);
}

#[test]
fn accessors_and_references_show_what_stands() {
    let mut buffer = capitals();
    assert_counts(&buffer, [3, 0, 0, 0, 3]);
    assert_states(&buffer, [false, false, true, true]);
    set_x_advance(&mut buffer);
    set_y_advances(&mut buffer);
    assert_advances(&buffer);
    read_one(&mut buffer);
    assert_counts(&buffer, [3, 1, 1, 1, 2]);
    assert_states(&buffer, [false, true, false, true]);
    assert_single(&buffer, (65, 0), 67);
    write_masks(&mut buffer);
    write_last(&mut buffer);
    write_ahead(&mut buffer);
    assert_single(&buffer, (5, 9), 6);
    assert_ids(buffer.out_info(), &[5]);
    assert_ids(buffer.info(), &[66, 6]);
}

fn clear_at_level_2(buffer: &mut hb_buffer_t) {
    buffer.cluster_level = 2;
    buffer.clear();
}

#[test]
fn clear_forgets_the_text() {
    let mut buffer = capitals();
    read_one(&mut buffer);
    clear_at_level_2(&mut buffer);
    assert_counts(&buffer, [0, 0, 0, 0, 0]);
    assert_states(&buffer, [true, false, false, true]);
    assert!(buffer.cluster_level == 0);
}

#[test]
fn a_new_buffer_is_empty() {
    let buffer = hb_buffer_t::new();
    assert_counts(&buffer, [0, 0, 0, 0, 0]);
    assert_states(&buffer, [true, false, false, true]);
    assert!(buffer.max_len() == 0x3FFF_FFFF);
    assert!(buffer.max_ops == 0x1FFF_FFFF);
}
