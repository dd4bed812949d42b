// Written by tools/plain_rust from crates/ot_gsub. Do not edit.

//! Edits that put one glyph or several in the place of one.

use crate::buffer::hb_buffer_t;
use crate::font_tables::gdef::Gdef;
use crate::glyph::hb_glyph_info_t;
use crate::memory::AllocError;
use crate::ot_gsub::properties::{BASE, LIGATURE, Way, substituted_props};
use crate::ot_gsub::substitution::Progress;
use crate::ot_gsub::writing::{drop_behind, gives_cluster, glyph_ahead, hand_on, write_properties};
use crate::ot_layout::ligature_parts::{ligature_id, mark_properties};
use crate::ot_substitution::glyph_table::Glyphs;

/// Sets the properties of the current glyph to those of the glyph that comes into its place.
///
/// # Requires
///
/// - `opened: buffer.old.have_output ≡ true`
/// - `glyph: 0 < length buffer.old.input`
pub(crate) fn set_class(buffer: &mut hb_buffer_t, gdef: &Gdef, glyph: u16, way: Way, guess: u16) {
    debug_assert!(buffer.have_output());
    debug_assert!(!buffer.info().is_empty());
    let mut written = glyph_ahead(buffer, 0);
    let props = substituted_props(gdef, written.glyph_props(), glyph, way, guess);
    written.set_glyph_props(props);
    write_properties(buffer, 0, &written);
}

/// Replaces the current glyph.
///
/// # Requires
///
/// - `opened: buffer.old.have_output ≡ true`
/// - `glyph: 0 < length buffer.old.input`
pub(crate) fn replace(
    buffer: &mut hb_buffer_t,
    gdef: &Gdef,
    glyph: u16,
) -> Result<bool, AllocError> {
    debug_assert!(buffer.have_output());
    debug_assert!(!buffer.info().is_empty());
    set_class(buffer, gdef, glyph, Way::Replaced, 0);
    buffer.replace_glyph(u32::from(glyph))
}

/// Replaces the current glyph by one of a set, by chance. As the next choice depends on this one, no
/// line may be broken anywhere.
///
/// # Requires
///
/// - `opened: buffer.old.have_output ≡ true`
/// - `glyph: 0 < length buffer.old.input`
pub(crate) fn choose(
    buffer: &mut hb_buffer_t,
    gdef: &Gdef,
    set: &Glyphs,
    progress: &mut Progress,
) -> Result<bool, AllocError> {
    debug_assert!(buffer.have_output());
    debug_assert!(!buffer.info().is_empty());
    mark_all(buffer);
    progress.random_state = next_random(progress.random_state);
    let index = if set.len() == 0 {
        0
    } else {
        progress.random_state % u32::from(set.len())
    };
    replace(buffer, gdef, set.glyph(index as u16))
}

/// Marks all glyphs as unsafe to break.
///
/// # Requires
///
/// - `buffer.old.have_output ≡ true`
fn mark_all(buffer: &mut hb_buffer_t) {
    debug_assert!(buffer.have_output());
    let end = buffer.len();
    buffer.unsafe_to_break_from_outbuffer(Some(0), Some(end));
}

/// Marks all glyphs as unsafe to break where the cluster of the current glyph, which is to go, is given
/// to others before it.
///
/// # Requires
///
/// - `opened: buffer.old.have_output ≡ true`
/// - `glyph: 0 < length buffer.old.input`
fn mark_given(buffer: &mut hb_buffer_t) {
    debug_assert!(buffer.have_output());
    debug_assert!(!buffer.info().is_empty());
    if gives_cluster(buffer) {
        mark_all(buffer);
    }
}

/// The next random number (the generator `minstd_rand` of C++, in 32 bits as HarfBuzz computes it).
fn next_random(state: u32) -> u32 {
    state.wrapping_mul(48271) % 2147483647
}

/// Puts the glyphs of a sequence in the place of the current one, and none in the place of a glyph that
/// is dropped.
///
/// # Requires
///
/// - `opened: buffer.old.have_output ≡ true`
/// - `glyph: 0 < length buffer.old.input`
pub(crate) fn multiply(
    buffer: &mut hb_buffer_t,
    gdef: &Gdef,
    sequence: &Glyphs,
) -> Result<bool, AllocError> {
    debug_assert!(buffer.have_output());
    debug_assert!(!buffer.info().is_empty());
    if sequence.len() == 0 {
        hand_on(buffer);
        mark_given(buffer);
        buffer.delete_glyph();
        return Ok(true);
    }
    let whole = glyph_ahead(buffer, 0);
    for index in 0..sequence.len() {
        if !put_part(buffer, gdef, &whole, index, sequence.glyph(index))? {
            return Ok(false);
        }
    }
    drop_behind(buffer);
    Ok(true)
}

/// Puts one of the glyphs out that come into the place of a glyph, which is the current one but for its
/// properties.
///
/// # Requires
///
/// - `opened: buffer.old.have_output ≡ true`
/// - `glyph: 0 < length buffer.old.input`
fn put_part(
    buffer: &mut hb_buffer_t,
    gdef: &Gdef,
    whole: &hb_glyph_info_t,
    index: u16,
    glyph: u16,
) -> Result<bool, AllocError> {
    debug_assert!(buffer.have_output());
    debug_assert!(!buffer.info().is_empty());
    set_component(buffer, index, ligature_id(whole) != 0);
    set_class(buffer, gdef, glyph, Way::Multiplied, part_guess(whole));
    buffer.output_glyph(u32::from(glyph))
}

/// The class that is guessed for the parts of a glyph.
fn part_guess(whole: &hb_glyph_info_t) -> u16 {
    if whole.glyph_props() & LIGATURE != 0 {
        BASE
    } else {
        0
    }
}

/// Sets of which number the current glyph is, of those that come into the place of one that is no part
/// of a ligature.
///
/// # Requires
///
/// - `opened: buffer.old.have_output ≡ true`
/// - `glyph: 0 < length buffer.old.input`
fn set_component(buffer: &mut hb_buffer_t, index: u16, is_part: bool) {
    debug_assert!(buffer.have_output());
    debug_assert!(!buffer.info().is_empty());
    if is_part {
        return;
    }
    let mut written = glyph_ahead(buffer, 0);
    written.set_lig_props(mark_properties(0, (index % 16) as u8));
    write_properties(buffer, 0, &written);
}
