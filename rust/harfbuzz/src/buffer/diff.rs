//! In what two buffers differ.

use crate::buffer::{GLYPH_FLAGS, GLYPHS, hb_buffer_t, hb_glyph_position_t};
use crate::types::hb_codepoint_t;
use std::ffi::c_uint;

const CONTENT_TYPE: c_uint = 1;
const LENGTH: c_uint = 2;
const NOTDEF: c_uint = 4;
const DOTTED_CIRCLE: c_uint = 8;
const CODEPOINT: c_uint = 16;
const CLUSTER: c_uint = 32;
const FLAGS: c_uint = 64;
const POSITION: c_uint = 128;

fn flag(is_set: bool, flag: c_uint) -> c_uint {
    if is_set { flag } else { 0 }
}

/// Whether there are glyphs that a font puts for what it has not.
fn substitutes(reference: &hb_buffer_t, dotted_circle: hb_codepoint_t) -> c_uint {
    if dotted_circle == hb_codepoint_t::MAX {
        return 0;
    }
    reference
        .infos
        .iter()
        .fold(0, |found, info| found | flag(info.codepoint == dotted_circle, DOTTED_CIRCLE) | flag(info.codepoint == 0, NOTDEF))
}

fn differ(first: &hb_glyph_position_t, second: &hb_glyph_position_t, fuzz: c_uint) -> bool {
    first.x_advance.abs_diff(second.x_advance) > fuzz
        || first.y_advance.abs_diff(second.y_advance) > fuzz
        || first.x_offset.abs_diff(second.x_offset) > fuzz
        || first.y_offset.abs_diff(second.y_offset) > fuzz
}

#[unsafe(no_mangle)]
pub unsafe extern "C" fn hb_buffer_diff(
    buffer: *mut hb_buffer_t,
    reference: *mut hb_buffer_t,
    dotted_circle: hb_codepoint_t,
    fuzz: c_uint,
) -> c_uint {
    // SAFETY: HarfBuzz's terms: two buffers that are alive.
    let (buffer, reference) = unsafe { (&*buffer, &*reference) };
    let both = !buffer.infos.is_empty() && !reference.infos.is_empty();
    if buffer.content_type != reference.content_type && both {
        return CONTENT_TYPE;
    }
    let mut found = substitutes(reference, dotted_circle);
    if buffer.infos.len() != reference.infos.len() {
        return found | LENGTH;
    }
    for (info, other) in buffer.infos.iter().zip(&reference.infos) {
        found |= flag(info.codepoint != other.codepoint, CODEPOINT)
            | flag(info.cluster != other.cluster, CLUSTER)
            | flag((info.mask ^ other.mask) & GLYPH_FLAGS != 0, FLAGS);
    }
    let mut positions = buffer.positions.iter().zip(&reference.positions);
    let moved = positions.any(|(position, other)| differ(position, other, fuzz));
    found | flag(buffer.content_type == GLYPHS && moved, POSITION)
}
