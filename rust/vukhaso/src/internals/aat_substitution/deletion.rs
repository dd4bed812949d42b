// Written by tools/plain_rust from crates/aat_substitution. Do not edit.

//! Glyphs that subtables deleted.

use crate::aat_tables::lookup::DELETED_GLYPH;
use crate::buffer::hb_buffer_t;
use crate::glyph::hb_glyph_info_t;

/// Takes out the glyphs that were deleted, with their positions, and keeps their clusters where these
/// are lower than those of their neighbours.
///
/// # Requires
///
/// - `buffer.old.have_output ≡ false`
///
/// # Proved
///
/// ```text
/// ensures is { buffer.new ≡ delete_glyphs_inplace is_deleted buffer.old }
/// ensures keeps { KeepsClusters buffer.old buffer.new }
/// ```
#[inline]
pub fn remove_deleted_glyphs(buffer: &mut hb_buffer_t) {
    debug_assert!(!buffer.have_output());
    buffer.delete_glyphs_inplace(is_deleted);
}

/// Whether a glyph was deleted.
///
/// # Proved
///
/// ```text
/// ensures { result ≡ is_deleted glyph.now }
/// ```
#[inline]
pub fn is_deleted(glyph: &hb_glyph_info_t) -> bool {
    glyph.glyph_id == u32::from(DELETED_GLYPH)
}
