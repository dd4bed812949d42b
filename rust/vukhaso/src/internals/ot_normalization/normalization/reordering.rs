// Written by tools/plain_rust from crates/ot_normalization. Do not edit.

//! The second round of normalization: marks in the order of their modified combining classes.

use crate::buffer::{hb_buffer_t, hb_glyph_info_t};
use crate::passes::normalization::{MOST_MARKS, MarkClasses, order_run, run_end};
use crate::script_items::item::modified_combining_class;
use crate::script_shapers::ScriptShaper;

/// The combining grapheme joiner, which keeps marks from being put in order.
const GRAPHEME_JOINER: u32 = 0x34F;

/// The classes that are kept of the characters, with their properties.
pub(crate) struct KeptClasses;

///
/// # Proved
///
/// ```text
/// ghost classes = { λ _. kept_class }
/// ghost alike = { λ _ g. refl }
/// ```
impl MarkClasses for KeptClasses {
    fn class_of(&self, info: &hb_glyph_info_t) -> u16 {
        modified_combining_class(info)
    }
}

/// Puts each run of at most 32 marks in the order of their classes; marks of one class stay in their
/// order. Then the shaper of the script may put them in another order.
///
/// # Requires
///
/// - `buffer.old.have_output ≡ false`
pub(crate) fn reorder_marks(buffer: &mut hb_buffer_t, shaper: ScriptShaper) {
    debug_assert!(!buffer.have_output());
    let mut at = 0;
    for _turn in 0..buffer.len() {
        if at >= buffer.len() {
            break;
        }
        let end = run_end(buffer.info(), &KeptClasses, at);
        if at < end && end - at <= MOST_MARKS {
            reorder_run(buffer, shaper, at, end);
        }
        at = end + 1;
    }
}

/// Puts a run of marks in the order of their classes, and then in that of the script.
///
/// # Requires
///
/// - `closed: buffer.old.have_output ≡ false`
/// - `some: start < end`
/// - `within: end ≤ length buffer.old.input`
fn reorder_run(buffer: &mut hb_buffer_t, shaper: ScriptShaper, start: usize, end: usize) {
    debug_assert!(!buffer.have_output());
    debug_assert!(start < end);
    debug_assert!(end <= buffer.info().len());
    order_run(buffer, &KeptClasses, start, end);
    shaper.reorder_marks(buffer, start, end);
}

/// Lets lookups pass over each combining grapheme joiner that did not keep marks from being put in
/// order.
///
/// # Requires
///
/// - `buffer.old.have_output ≡ false`
pub(crate) fn unhide_joiners(buffer: &mut hb_buffer_t) {
    debug_assert!(!buffer.have_output());
    unhide_all(buffer.info_slice_mut());
}

/// Lets lookups pass over each of these joiners.
fn unhide_all(infos: &mut [hb_glyph_info_t]) {
    for i in 1..infos.len().saturating_sub(1) {
        let before = modified_combining_class(&infos[i - 1]);
        let behind = modified_combining_class(&infos[i + 1]);
        if infos[i].glyph_id == GRAPHEME_JOINER && (behind == 0 || before <= behind) {
            infos[i].unhide();
        }
    }
}
