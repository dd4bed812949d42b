// Written by tools/plain_rust from crates/ot_positions. Do not edit.

//! Glyphs that take no room: marks, what is invisible by default, and what was deleted.

use crate::aat_substitution::deletion::is_deleted;
use crate::buffer::{
    BufferFlags, GlyphPosition, HB_BUFFER_SCRATCH_FLAG_HAS_DEFAULT_IGNORABLES, hb_buffer_t,
};
use crate::ot_positions::glyph_info::{is_default_ignorable, is_mark};

/// Takes the advance of each glyph that is a mark by its font; moves the mark back by it if `adjusts`
/// says so.
///
/// # Requires
///
/// Positions, and that no output is open.
///
/// - `closed: buffer.old.have_output ≡ false`
/// - `placed: IsSome buffer.old.positions`
///
/// # Proved
///
/// ```text
/// ensures is { buffer.new ≡ widths.zero_mark_widths adjusts buffer.old }
/// ensures closed { buffer.new.have_output ≡ false }
/// ensures placed { IsSome buffer.new.positions }
/// ensures keeps { KeepsClusters buffer.old buffer.new }
/// ```
#[inline]
pub fn zero_mark_widths(buffer: &mut hb_buffer_t, adjusts: bool) {
    debug_assert!(!buffer.have_output());
    debug_assert!(buffer.have_positions());
    for i in 0..buffer.len() {
        if is_mark(&buffer.info()[i]) {
            zero_mark_width_at(buffer, i, adjusts);
        }
    }
}

/// Takes the advance of the glyph at a place.
///
/// # Requires
///
/// - `closed: buffer.old.have_output ≡ false`
/// - `placed: IsSome buffer.old.positions`
#[inline(always)]
fn zero_mark_width_at(buffer: &mut hb_buffer_t, place: usize, adjusts: bool) {
    debug_assert!(!buffer.have_output());
    debug_assert!(buffer.have_positions());
    narrow(buffer.pos_mut(), place, adjusts);
}

/// Takes the advance at a place.
#[inline(always)]
fn narrow(positions: &mut [GlyphPosition], place: usize, adjusts: bool) {
    if place < positions.len() {
        zero_mark_width(&mut positions[place], adjusts);
    }
}

/// Takes the advance of a mark; moves the mark back by it if `adjusts` says so.
///
/// # Proved
///
/// ```text
/// ensures { position.new ≡ without_advance adjusts position.old }
/// ```
#[inline]
pub fn zero_mark_width(position: &mut GlyphPosition, adjusts: bool) {
    if adjusts {
        position.x_offset = position.x_offset.wrapping_sub(position.x_advance);
        position.y_offset = position.y_offset.wrapping_sub(position.y_advance);
    }
    position.x_advance = 0;
    position.y_advance = 0;
}

/// Takes the advances and offsets of characters that are invisible by default, unless the buffer's
/// flags say that they are kept or removed.
///
/// # Requires
///
/// Positions, and that no output is open.
///
/// - `closed: buffer.old.have_output ≡ false`
/// - `placed: IsSome buffer.old.positions`
///
/// # Proved
///
/// ```text
/// ensures is { buffer.new ≡ widths.zero_width_default_ignorables buffer.old }
/// ensures closed { buffer.new.have_output ≡ false }
/// ensures placed { IsSome buffer.new.positions }
/// ensures keeps { KeepsClusters buffer.old buffer.new }
/// ```
#[inline]
pub fn zero_width_default_ignorables(buffer: &mut hb_buffer_t) {
    debug_assert!(!buffer.have_output());
    debug_assert!(buffer.have_positions());
    if !hides_ignorables(buffer) {
        return;
    }
    for i in 0..buffer.len() {
        if is_default_ignorable(&buffer.info()[i]) {
            take_width_at(buffer, i);
        }
    }
}

/// Whether characters that are invisible by default are to take no room.
fn hides_ignorables(buffer: &hb_buffer_t) -> bool {
    buffer.scratch_flags & HB_BUFFER_SCRATCH_FLAG_HAS_DEFAULT_IGNORABLES != 0
        && !buffer
            .flags
            .contains(BufferFlags::PRESERVE_DEFAULT_IGNORABLES)
        && !buffer
            .flags
            .contains(BufferFlags::REMOVE_DEFAULT_IGNORABLES)
}

/// Takes the advances and offsets of glyphs that Apple's table `morx` deleted.
///
/// # Requires
///
/// Positions, and that no output is open.
///
/// - `closed: buffer.old.have_output ≡ false`
/// - `placed: IsSome buffer.old.positions`
///
/// # Proved
///
/// ```text
/// ensures is { buffer.new ≡ widths.zero_width_deleted_glyphs buffer.old }
/// ensures closed { buffer.new.have_output ≡ false }
/// ensures placed { IsSome buffer.new.positions }
/// ensures keeps { KeepsClusters buffer.old buffer.new }
/// ```
#[inline]
pub fn zero_width_deleted_glyphs(buffer: &mut hb_buffer_t) {
    debug_assert!(!buffer.have_output());
    debug_assert!(buffer.have_positions());
    for i in 0..buffer.len() {
        if is_deleted(&buffer.info()[i]) {
            take_width_at(buffer, i);
        }
    }
}

/// Takes all width and every offset of the glyph at a place.
///
/// # Requires
///
/// - `closed: buffer.old.have_output ≡ false`
/// - `placed: IsSome buffer.old.positions`
#[inline(always)]
pub(crate) fn take_width_at(buffer: &mut hb_buffer_t, place: usize) {
    debug_assert!(!buffer.have_output());
    debug_assert!(buffer.have_positions());
    take_width_in(buffer.pos_mut(), place);
}

/// Takes all width and every offset at a place.
#[inline(always)]
fn take_width_in(positions: &mut [GlyphPosition], place: usize) {
    if place < positions.len() {
        take_width(&mut positions[place]);
    }
}

/// Takes all width and every offset of a glyph; what it is attached to stays.
fn take_width(position: &mut GlyphPosition) {
    *position = GlyphPosition {
        var: position.var,
        ..GlyphPosition::default()
    };
}
