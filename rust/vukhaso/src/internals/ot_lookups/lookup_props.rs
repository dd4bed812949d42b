// Written by tools/plain_rust from crates/ot_lookups. Do not edit.

//! Which glyphs a lookup passes over by its flag (OpenType specification, "OpenType Layout Common Table Formats", "Lookup
//! table").

use crate::common::GlyphId;
use crate::font_tables::coverage::Coverage;
use crate::glyph::hb_glyph_info_t;

/// The bits of a lookup's flag that name classes of glyphs to be passed over: those of the glyph properties.
const IGNORED_CLASSES: u16 = 0x000E;

/// The property of a mark.
const MARK: u16 = 0x0008;

/// The bit that says that all marks are passed over but those of a set.
const USE_MARK_FILTERING_SET: u16 = 0x0010;

/// The bits of an attachment class of marks; all other marks are passed over.
const MARK_ATTACHMENT_CLASS: u16 = 0xFF00;

/// The glyphs that a lookup passes over.
#[derive(Clone, Copy, Debug)]
pub struct LookupProps<'a> {
    /// The lookup's flag.
    pub flags: u16,
    /// The marks that are not passed over, where the flag asks for a set of them.
    pub marks: Coverage<'a>,
}

impl<'a> LookupProps<'a> {
    /// Whether the lookup passes over the glyph, by its properties.
    ///
    /// # Proved
    ///
    /// ```text
    /// ensures { result ≡ passes_over self.now glyph.now }
    /// ```
    #[inline]
    pub fn passes_over(&self, glyph: &hb_glyph_info_t) -> bool {
        let properties = glyph.glyph_props();
        if properties & self.flags & IGNORED_CLASSES != 0 {
            return true;
        }
        properties & MARK != 0 && self.passes_over_mark(properties, glyph.glyph_id)
    }

    /// Whether the lookup passes over a mark.
    fn passes_over_mark(&self, properties: u16, glyph: u32) -> bool {
        if self.flags & USE_MARK_FILTERING_SET != 0 {
            return covered_index(&self.marks, glyph).is_none();
        }
        let class = self.flags & MARK_ATTACHMENT_CLASS;
        class != 0 && class != properties & MARK_ATTACHMENT_CLASS
    }
}

/// The coverage index of a glyph of a buffer; `None` where it is not covered, as no number past 65,535
/// is.
///
/// # Proved
///
/// ```text
/// ensures { result ≡ covered_index coverage.now.table.now glyph }
/// ```
#[inline]
pub fn covered_index(coverage: &Coverage, glyph: u32) -> Option<u32> {
    if glyph > 0xFFFF {
        return None;
    }
    coverage.index(GlyphId(glyph as u16))
}
