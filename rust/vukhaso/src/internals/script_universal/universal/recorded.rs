// Written by tools/plain_rust from crates/script_universal. Do not edit.

//! What became of glyphs by the features of rephs and of forms that stand in front: the glyphs are sorted anew.

use crate::buffer::{hb_buffer_t, hb_glyph_info_t};
use crate::glyph::GlyphPropsFlags;
use crate::script_syllables::item::is_substituted;
use crate::script_syllables::syllables::{SyllableWork, work_on_all};
use crate::script_universal::universal::item::set;
use crate::universal_categories::UniversalCategory;

/// Forgets which glyphs lookups put there.
///
/// # Requires
///
/// - `buffer.old.have_output ≡ false`
pub(crate) fn forget_substitutions(buffer: &mut hb_buffer_t) {
    debug_assert!(!buffer.have_output());
    forget_all(buffer.info_slice_mut());
}

/// Does that in a list.
fn forget_all(infos: &mut [hb_glyph_info_t]) {
    for info in infos.iter_mut() {
        forget(info);
    }
}

/// Does that with a glyph.
fn forget(info: &mut hb_glyph_info_t) {
    info.set_glyph_props(info.glyph_props() & !GlyphPropsFlags::SUBSTITUTED.bits());
}

/// A feature of which it is noted where it has made a glyph.
#[derive(Clone, Copy, Debug)]
pub(crate) struct Recorded {
    /// The mask of the first items of a syllable, of which alone it may have made one; `None` where it may have made any.
    pub(crate) mask: Option<u32>,
    /// The category of what it has made.
    pub(crate) category: UniversalCategory,
}

/// Takes the first glyph of each syllable that a lookup put there for one that the feature made.
///
/// # Requires
///
/// - `buffer.old.have_output ≡ false`
pub(crate) fn record_made(buffer: &mut hb_buffer_t, recorded: Recorded) {
    debug_assert!(!buffer.have_output());
    work_on_all(buffer.info_slice_mut(), &recorded);
}

impl SyllableWork for Recorded {
    fn work_on(&self, syllable: &mut [hb_glyph_info_t]) {
        record_first(syllable, *self);
    }
}

/// Does that in a syllable.
fn record_first(infos: &mut [hb_glyph_info_t], recorded: Recorded) {
    for place in 0..infos.len() {
        if !may_have_made(&infos[place], recorded.mask) {
            return;
        }
        if is_substituted(&infos[place]) {
            set(&mut infos[place], recorded.category);
            return;
        }
    }
}

/// Whether a feature with this mask may have made a glyph.
fn may_have_made(info: &hb_glyph_info_t, mask: Option<u32>) -> bool {
    match mask {
        Some(mask) => info.mask & mask != 0,
        None => true,
    }
}
