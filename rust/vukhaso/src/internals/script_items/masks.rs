// Written by tools/plain_rust from crates/script_items. Do not edit.

//! The masks of the features that a shaper gives each item by itself.

use crate::buffer::{hb_buffer_t, hb_glyph_info_t};
use crate::script_items::item::shaper_byte;

/// Adds to each item's mask that of the number which it keeps.
///
/// # Requires
///
/// - `buffer.old.have_output ≡ false`
///
/// # Proved
///
/// ```text
/// ensures is { buffer.new ≡ record buffer.old { input = map (with_form_mask masks.now) buffer.old.input } }
/// ensures closed { buffer.new.have_output ≡ false }
/// ensures keeps { KeepsClusters buffer.old buffer.new }
/// ```
#[inline]
pub fn add_masks(buffer: &mut hb_buffer_t, masks: &[u32; 8]) {
    debug_assert!(!buffer.have_output());
    add_masks_to(buffer.info_slice_mut(), masks);
}

/// Does that with these items.
fn add_masks_to(infos: &mut [hb_glyph_info_t], masks: &[u32; 8]) {
    for info in infos.iter_mut() {
        add_mask(info, masks);
    }
}

/// Adds to an item's mask that of the number which it keeps.
fn add_mask(info: &mut hb_glyph_info_t, masks: &[u32; 8]) {
    let byte = usize::from(shaper_byte(info));
    if byte < 8 {
        info.mask = info.mask | masks[byte];
    }
}
