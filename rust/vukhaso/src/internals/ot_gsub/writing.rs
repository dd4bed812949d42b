// Written by tools/plain_rust from crates/ot_gsub. Do not edit.

//! What lookups write besides the glyphs themselves: properties of glyphs that are left to read, and what is said of the
//! buffer. No cluster changes by it.

use crate::buffer::cluster_level::{
    HB_BUFFER_CLUSTER_LEVEL_CHARACTERS, HB_BUFFER_CLUSTER_LEVEL_GRAPHEMES,
};
use crate::buffer::hb_buffer_t;
use crate::glyph::{glyph_flag, hb_glyph_info_t};

/// The glyph so many places ahead of the cursor.
///
/// # Requires
///
/// - `opened: buffer.now.have_output ≡ true`
/// - `glyph: ahead < length buffer.now.input`
pub(crate) fn glyph_ahead(buffer: &hb_buffer_t, ahead: usize) -> hb_glyph_info_t {
    debug_assert!(buffer.have_output());
    debug_assert!(ahead < buffer.info().len());
    *buffer.cur(ahead)
}

/// Writes the properties of a glyph so many places ahead of the cursor: the words `var1` and `var2`.
///
/// # Requires
///
/// - `opened: buffer.old.have_output ≡ true`
/// - `glyph: ahead < length buffer.old.input`
pub(crate) fn write_properties(buffer: &mut hb_buffer_t, ahead: usize, glyph: &hb_glyph_info_t) {
    debug_assert!(buffer.have_output());
    debug_assert!(ahead < buffer.info().len());
    let written = buffer.cur_mut(ahead);
    written.var1 = glyph.var1;
    written.var2 = glyph.var2;
}

/// Says that shaping met a limit.
pub(crate) fn fail(buffer: &mut hb_buffer_t) {
    buffer.shaping_failed = true;
}

/// Hands the glyph flags of the current glyph, which is to go, to the glyph before it, or else the one
/// behind it, that is left in its cluster: where a break was unsafe it stays so.
///
/// # Requires
///
/// - `opened: buffer.old.have_output ≡ true`
/// - `glyph: 0 < length buffer.old.input`
pub(crate) fn hand_on(buffer: &mut hb_buffer_t) {
    debug_assert!(buffer.have_output());
    debug_assert!(!buffer.info().is_empty());
    let flags = glyph_ahead(buffer, 0).mask & glyph_flag::DEFINED;
    if has_twin_before(buffer) {
        if flags & glyph_flag::UNSAFE_TO_BREAK != 0 {
            hand_back(buffer, flags);
        }
    } else if has_twin_behind(buffer) {
        hand_ahead(buffer, flags);
    }
}

/// Adds glyph flags to those of the last glyph that was put out.
///
/// # Requires
///
/// - `opened: buffer.old.have_output ≡ true`
/// - `before: 0 < length buffer.old.out`
fn hand_back(buffer: &mut hb_buffer_t, flags: u32) {
    debug_assert!(buffer.have_output());
    debug_assert!(0 < buffer.out_len());
    let taker = buffer.prev_mut();
    taker.mask = taker.mask | flags;
}

/// Adds glyph flags to those of the next glyph.
///
/// # Requires
///
/// - `opened: buffer.old.have_output ≡ true`
/// - `behind: 1 < length buffer.old.input`
fn hand_ahead(buffer: &mut hb_buffer_t, flags: u32) {
    debug_assert!(buffer.have_output());
    debug_assert!(1 < buffer.info().len());
    let taker = buffer.cur_mut(1);
    taker.mask = taker.mask | flags;
}

/// Drops the current glyph, for which the last glyph that was put out stands: it is in the same
/// cluster, unless clusters may stand in any order. Were it in another, that would go to a neighbour.
///
/// # Requires
///
/// - `opened: buffer.old.have_output ≡ true`
/// - `glyph: 0 < length buffer.old.input`
pub(crate) fn drop_behind(buffer: &mut hb_buffer_t) {
    debug_assert!(buffer.have_output());
    debug_assert!(!buffer.info().is_empty());
    if has_twin_before(buffer) {
        buffer.skip_glyph();
    } else if may_stand_in_any_order(buffer) {
        buffer.skip_glyph();
    } else {
        buffer.delete_glyph();
    }
}

/// Whether the last glyph that was put out is in the cluster of the current one.
///
/// # Requires
///
/// - `opened: buffer.now.have_output ≡ true`
/// - `glyph: 0 < length buffer.now.input`
fn has_twin_before(buffer: &hb_buffer_t) -> bool {
    debug_assert!(buffer.have_output());
    debug_assert!(!buffer.info().is_empty());
    if buffer.out_len() == 0 {
        return false;
    }
    buffer.prev().cluster == glyph_ahead(buffer, 0).cluster
}

/// Whether the next glyph is in the cluster of the current one.
///
/// # Requires
///
/// - `opened: buffer.now.have_output ≡ true`
/// - `glyph: 0 < length buffer.now.input`
fn has_twin_behind(buffer: &hb_buffer_t) -> bool {
    debug_assert!(buffer.have_output());
    debug_assert!(!buffer.info().is_empty());
    if buffer.info().len() < 2 {
        return false;
    }
    let next = glyph_ahead(buffer, 1);
    let current = glyph_ahead(buffer, 0);
    next.cluster == current.cluster
}

/// Whether the cluster of the current glyph goes to glyphs before it when it is deleted, though
/// clusters may stand in any order.
///
/// # Requires
///
/// - `opened: buffer.now.have_output ≡ true`
/// - `glyph: 0 < length buffer.now.input`
pub(crate) fn gives_cluster(buffer: &hb_buffer_t) -> bool {
    debug_assert!(buffer.have_output());
    debug_assert!(!buffer.info().is_empty());
    if !may_stand_in_any_order(buffer) || has_twin_behind(buffer) || buffer.out_len() == 0 {
        return false;
    }
    glyph_ahead(buffer, 0).cluster < buffer.prev().cluster
}

/// Whether clusters may stand in any order.
fn may_stand_in_any_order(buffer: &hb_buffer_t) -> bool {
    buffer.cluster_level == HB_BUFFER_CLUSTER_LEVEL_CHARACTERS
        || buffer.cluster_level == HB_BUFFER_CLUSTER_LEVEL_GRAPHEMES
}
