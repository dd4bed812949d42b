// Written by tools/plain_rust from crates/glyph_sides. Do not edit.

//! Copies of a glyph under other ids.

use crate::glyph::hb_glyph_info_t;
use crate::memory::Vec;

/// A glyph under another id.
// Copied whole, and then given the id, it is written in two pieces by rustc, and by Rattle as fast as word by word.
#[inline(always)]
fn with_id(glyph: hb_glyph_info_t, id: u32) -> hb_glyph_info_t {
    let mut copy = hb_glyph_info_t { ..glyph };
    copy.glyph_id = id;
    copy
}

/// Appends a copy of a glyph under each id, where there is room.
///
/// # Requires
///
/// - `length out.old.items + length ids.now ≤ vec_capacity out.old`
#[inline(always)]
pub(crate) fn append_copies(out: &mut Vec<hb_glyph_info_t>, glyph: hb_glyph_info_t, ids: &[u32]) {
    debug_assert!(out.len() + ids.len() <= out.capacity());
    for id in ids {
        out.push_reserved(with_id(glyph, *id));
    }
}

/// Writes a copy of a glyph under each id, from a place on.
///
/// # Requires
///
/// - `at + length ids.now ≤ length info.old`
#[inline(always)]
pub(crate) fn write_copies(
    info: &mut [hb_glyph_info_t],
    at: usize,
    glyph: hb_glyph_info_t,
    ids: &[u32],
) {
    debug_assert!(at + ids.len() <= info.len());
    fill(&mut info[at..at + ids.len()], glyph, ids);
}

/// Fills a slice with a copy of a glyph under each id.
///
/// # Requires
///
/// - `length slots.old ≡ length ids.now`
#[inline(always)]
fn fill(slots: &mut [hb_glyph_info_t], glyph: hb_glyph_info_t, ids: &[u32]) {
    debug_assert!(slots.len() == ids.len());
    for (i, id) in ids.iter().enumerate() {
        slots[i] = with_id(glyph, *id);
    }
}
