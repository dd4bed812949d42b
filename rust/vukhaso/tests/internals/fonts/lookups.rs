//! Lookups over plain lists of glyphs, after the OpenType specification, "OpenType Layout Common Table Formats" and "GSUB - Glyph
//! Substitution Table".

mod contexts;
mod edits;
mod glyphs;
mod limits;

use vukhaso::internals::font_tables::bytes::tail;
use vukhaso::internals::font_tables::gdef::Gdef;
use vukhaso::internals::glyph::hb_glyph_info_t;
use vukhaso::internals::ot_layout::LookupOptions;
use vukhaso::internals::ot_lookups::LookupList;
use vukhaso::internals::ot_lookups::lookup_list::SUBSTITUTION_EXTENSION;
use vukhaso::memory::AllocError;

/// The bits of the only feature.
pub(crate) const OPTIONS: LookupOptions = LookupOptions {
    mask: 8,
    auto_zwnj: true,
    auto_zwj: true,
    per_syllable: false,
    random: false,
};

/// A zero width joiner in a list of glyphs.
pub(crate) const JOINER: u32 = 3;

/// A zero width non-joiner.
pub(crate) const NON_JOINER: u32 = 4;

/// Glyphs of the feature; the joiner and the non-joiner are invisible format characters.
pub(crate) fn fill(glyphs: &mut [hb_glyph_info_t], ids: &[u32]) {
    for (glyph, id) in glyphs.iter_mut().zip(ids) {
        *glyph = hb_glyph_info_t {
            glyph_id: *id,
            mask: 8,
            var2: match *id {
                JOINER => 0x0121,
                NON_JOINER => 0x0221,
                _ => 0,
            },
            ..hb_glyph_info_t::default()
        };
    }
}

/// The lookups of a table, with no classes of glyphs.
pub(crate) fn list_of<'a>(table: &'a [u8]) -> Result<LookupList<'a>, AllocError> {
    let gdef = Gdef::new(tail(table, table.len()));
    LookupList::new(table, SUBSTITUTION_EXTENSION, &gdef)
}
