// Written by tools/plain_rust from crates/aat_substitution. Do not edit.

//! Subtables that put another glyph in the place of each glyph.

use crate::aat_substitution::setting::Reach;
use crate::aat_substitution::work::Work;
use crate::aat_substitution::writing::set_glyph;
use crate::aat_tables::Lookup;
use crate::buffer::hb_buffer_t;
use crate::font_tables::gdef::Gdef;
use crate::glyph::hb_glyph_info_t;

/// Puts another glyph in the place of each for which the lookup has one.
///
/// # Requires
///
/// - `buffer.old.have_output ≡ false`
pub(crate) fn replace_all(
    buffer: &mut hb_buffer_t,
    lookup: &Lookup,
    reach: &Reach,
    gdef: &Gdef,
    work: &mut Work,
) {
    debug_assert!(!buffer.have_output());
    work.budget.pay_for(buffer.len());
    replace_each(buffer.info_slice_mut(), lookup, reach, gdef, work);
}

/// Puts another glyph in the place of each of these for which the lookup has one.
fn replace_each(
    glyphs: &mut [hb_glyph_info_t],
    lookup: &Lookup,
    reach: &Reach,
    gdef: &Gdef,
    work: &mut Work,
) {
    for place in 0..glyphs.len() {
        if let Some(glyph) = replacement(&glyphs[place], lookup, reach) {
            set_glyph(glyphs, place, glyph, gdef);
            work.digest.add(u32::from(glyph));
        }
    }
}

/// What the lookup puts in the place of a glyph, where it is applied.
fn replacement(glyph: &hb_glyph_info_t, lookup: &Lookup, reach: &Reach) -> Option<u16> {
    if reach.is_parted() && !reach.reaches(reach.flags.part_of(glyph.cluster)) {
        return None;
    }
    lookup.value(u16::try_from(glyph.glyph_id).ok()?)
}
