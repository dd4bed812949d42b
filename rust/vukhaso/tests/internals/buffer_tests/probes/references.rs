// Written by tools/plain_rust from crates/buffer_tests. Do not edit.

//! Writes through a buffer's references and public fields: each lands at its one place, and nothing else changes.

use vukhaso::internals::buffer::hb_buffer_t;

/// Writes a mask on the out side.
///
/// # Requires
///
/// - `i < length buffer.old.out`
///
/// # Proved
///
/// ```text
/// ensures { buffer.new ≡ mask_in_out i buffer.old }
/// ```
#[inline]
pub fn mask_out(buffer: &mut hb_buffer_t, i: usize) {
    debug_assert!(i < buffer.out_len());
    buffer.out_info_mut()[i].mask = 5;
}

/// Writes two masks on the out side through one reference.
///
/// # Requires
///
/// - `first: i < length buffer.old.out`
/// - `second: j < length buffer.old.out`
///
/// # Proved
///
/// ```text
/// ensures { buffer.new ≡ mask_in_out_twice i j buffer.old }
/// ```
#[inline]
pub fn mask_two_out(buffer: &mut hb_buffer_t, i: usize, j: usize) {
    debug_assert!(i < buffer.out_len());
    debug_assert!(j < buffer.out_len());
    let out = buffer.out_info_mut();
    out[i].mask = 5;
    out[j].mask = 5;
}

/// Writes a mask in the list.
///
/// # Requires
///
/// - `closed: buffer.old.have_output ≡ false`
/// - `within: i < length buffer.old.input`
///
/// # Proved
///
/// ```text
/// ensures { buffer.new ≡ mask_in_input i buffer.old }
/// ```
#[inline]
pub fn write_mask_in_list(buffer: &mut hb_buffer_t, i: usize) {
    debug_assert!(!buffer.have_output());
    debug_assert!(i < buffer.info().len());
    buffer.info_slice_mut()[i].mask = 5;
}

/// Writes the mask of the last glyph that was put out.
///
/// # Requires
///
/// - `0 < length buffer.old.out`
///
/// # Proved
///
/// ```text
/// ensures { buffer.new ≡ mask_of_last buffer.old }
/// ```
#[inline]
pub fn mask_last(buffer: &mut hb_buffer_t) {
    debug_assert!(0 < buffer.out_len());
    buffer.prev_mut().mask = 5;
}

/// Writes the mask of a glyph at the cursor or after it.
///
/// # Requires
///
/// - `k < lookahead_len buffer.old`
///
/// # Proved
///
/// ```text
/// ensures { buffer.new ≡ mask_ahead k buffer.old }
/// ```
#[inline]
pub fn mask_next(buffer: &mut hb_buffer_t, k: usize) {
    debug_assert!(k < buffer.lookahead_len());
    buffer.cur_mut(k).mask = 5;
}

/// Writes the advance of the glyph at the cursor.
///
/// # Requires
///
/// - `placed: IsSome buffer.old.positions`
/// - `glyph: 0 < lookahead_len buffer.old`
///
/// # Proved
///
/// ```text
/// ensures { buffer.new ≡ advance_in_positions buffer.old.idx buffer.old }
/// ```
#[inline]
pub fn advance_here(buffer: &mut hb_buffer_t) {
    debug_assert!(buffer.have_positions());
    debug_assert!(0 < buffer.lookahead_len());
    buffer.cur_pos_mut().x_advance = 5;
}

/// Writes the advance of a glyph by its place.
///
/// # Requires
///
/// - `placed: IsSome buffer.old.positions`
/// - `within: i < len buffer.old`
///
/// # Proved
///
/// ```text
/// ensures { buffer.new ≡ advance_in_positions i buffer.old }
/// ```
#[inline]
pub fn advance_at(buffer: &mut hb_buffer_t, i: usize) {
    debug_assert!(buffer.have_positions());
    debug_assert!(i < buffer.len());
    buffer.pos_mut()[i].x_advance = 5;
}

/// Sets a public field.
///
/// # Proved
///
/// ```text
/// ensures { buffer.new ≡ record buffer.old { cluster_level = 2 } }
/// ```
#[inline]
pub fn set_level(buffer: &mut hb_buffer_t) {
    buffer.cluster_level = 2;
}

/// Sets some more.
///
/// # Proved
///
/// ```text
/// ensures { buffer.new ≡ record buffer.old {
///       script = None;
///       language = None;
///       not_found_variation_selector = Some 7;
///     } }
/// ```
#[inline]
pub fn forget_what_was_said(buffer: &mut hb_buffer_t) {
    buffer.script = None;
    buffer.language = None;
    buffer.not_found_variation_selector = Some(7);
}
