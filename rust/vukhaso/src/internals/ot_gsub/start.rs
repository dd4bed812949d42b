// Written by tools/plain_rust from crates/ot_gsub. Do not edit.

//! What is set before lookups are applied.

use crate::buffer::hb_buffer_t;
use crate::common::GlyphId;
use crate::font_tables::gdef::Gdef;
use crate::glyph::hb_glyph_info_t;
use crate::ot_gsub::properties::{BASE, MARK};

/// The bits of the Unicode properties that hold the general category.
const GENERAL_CATEGORY: u16 = 0x001F;

/// The general category of marks without width.
const NON_SPACING_MARK: u16 = 12;

/// The Unicode property of a character that is invisible by default.
const IGNORABLE: u16 = 0x0020;

/// Sets the properties of each glyph: those of its class in the font, or by its character where the
/// font has no classes. No glyph is part of a ligature or of a syllable yet.
///
/// # Requires
///
/// - `buffer.old.have_output ≡ false`
///
/// # Proved
///
/// ```text
/// ensures is { buffer.new ≡ record buffer.old { input = map (started gdef.now.table.now) buffer.old.input } }
/// ensures closed { buffer.new.have_output ≡ false }
/// ensures keeps { KeepsClusters buffer.old buffer.new }
/// ```
#[inline]
pub fn substitute_start(buffer: &mut hb_buffer_t, gdef: &Gdef) {
    debug_assert!(!buffer.have_output());
    set_all(buffer.info_slice_mut(), gdef);
}

/// Sets the properties of each glyph.
fn set_all(glyphs: &mut [hb_glyph_info_t], gdef: &Gdef) {
    for glyph in glyphs.iter_mut() {
        glyph.var1 = u32::from(first_props(glyph, gdef));
    }
}

/// The properties of a glyph that no lookup has changed.
fn first_props(info: &hb_glyph_info_t, gdef: &Gdef) -> u16 {
    if gdef.has_glyph_classes() {
        return match u16::try_from(info.glyph_id) {
            Ok(glyph) => gdef.glyph_props(GlyphId(glyph)),
            Err(_) => 0,
        };
    }
    let unicode = info.unicode_props();
    if unicode & GENERAL_CATEGORY == NON_SPACING_MARK && unicode & IGNORABLE == 0 {
        MARK
    } else {
        BASE
    }
}
