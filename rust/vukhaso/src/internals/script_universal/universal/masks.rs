// Written by tools/plain_rust from crates/script_universal. Do not edit.

//! Which features the items of syllables have.

use crate::buffer::{hb_buffer_t, hb_glyph_info_t};
use crate::script_syllables::item::add_mask;
use crate::script_syllables::syllables::{SyllableWork, kind_at, syllable_end, work_on_all};
use crate::script_universal::universal::item::is;
use crate::script_universal::universal::plan::{BROKEN, FormMasks};
use crate::universal_categories::UniversalCategory;

/// How many items may make a reph.
const REPH_LENGTH: usize = 3;

/// The last kind of syllables that join, but for broken ones.
const SYMBOL: u8 = 5;

/// Sets the mask of rephs on the first items of each syllable.
///
/// # Requires
///
/// - `buffer.old.have_output ≡ false`
pub(crate) fn mask_rephs(buffer: &mut hb_buffer_t, mask: u32) {
    debug_assert!(!buffer.have_output());
    work_on_all(buffer.info_slice_mut(), &RephMask(mask));
}

/// The mask of rephs.
#[derive(Debug)]
struct RephMask(u32);

impl SyllableWork for RephMask {
    fn work_on(&self, syllable: &mut [hb_glyph_info_t]) {
        mask_reph(syllable, self.0);
    }
}

/// Sets the mask of rephs on the first items of a syllable: on one that is a reph already, or on three.
fn mask_reph(syllable: &mut [hb_glyph_info_t], mask: u32) {
    let count = match syllable.first() {
        Some(first) if is(first, UniversalCategory::Repha) => 1,
        _ => REPH_LENGTH,
    };
    add_mask(syllable, 0, count, mask);
}

/// How a syllable stands in its word, as far as it was read.
#[derive(Clone, Copy, PartialEq, Eq, Debug)]
enum JoiningForm {
    /// It is none that joins.
    Unformed,
    /// It is alone.
    Alone,
    /// It is the last.
    Last,
}

/// Gives the items of each syllable the form of its place in a word: neighbours join, whatever they
/// are.
///
/// # Requires
///
/// - `buffer.old.have_output ≡ false`
pub(crate) fn mask_forms(buffer: &mut hb_buffer_t, masks: &FormMasks) {
    debug_assert!(!buffer.have_output());
    set_forms(buffer.info_slice_mut(), masks);
}

/// Does that in a list.
fn set_forms(infos: &mut [hb_glyph_info_t], masks: &FormMasks) {
    if masks.all() == 0 {
        return;
    }
    let (mut before, mut start) = (0, 0);
    let mut form = JoiningForm::Unformed;
    for _turn in 0..infos.len() {
        if start >= infos.len() {
            break;
        }
        let end = syllable_end(infos, start);
        let joined = if form == JoiningForm::Last {
            masks.medi
        } else {
            masks.init
        };
        form = next_form(kind_at(infos, start), form);
        if form == JoiningForm::Last {
            set_form(infos, before, start, masks, joined);
        }
        if form != JoiningForm::Unformed {
            set_form(infos, start, end, masks, own_mask(form, masks));
        }
        before = start;
        start = end;
    }
}

/// The mask of the last syllable that was read.
fn own_mask(form: JoiningForm, masks: &FormMasks) -> u32 {
    match form {
        JoiningForm::Last => masks.fina,
        JoiningForm::Unformed | JoiningForm::Alone => masks.isol,
    }
}

/// Whether syllables of a kind join.
pub(crate) fn joins(kind: u8) -> bool {
    kind <= SYMBOL || kind == BROKEN
}

/// The form of a syllable of a kind, behind one of the form `last`.
fn next_form(kind: u8, last: JoiningForm) -> JoiningForm {
    if !joins(kind) {
        return JoiningForm::Unformed;
    }
    match last {
        JoiningForm::Unformed => JoiningForm::Alone,
        JoiningForm::Alone | JoiningForm::Last => JoiningForm::Last,
    }
}

/// Gives the items from `start` to `end` the mask of a form, and takes those of the other forms.
///
/// # Requires
///
/// - `order: start ≤ end`
/// - `within: end ≤ length infos.old`
fn set_form(infos: &mut [hb_glyph_info_t], start: usize, end: usize, masks: &FormMasks, mask: u32) {
    debug_assert!(start <= end);
    debug_assert!(end <= infos.len());
    form_all(&mut infos[start..end], masks, mask);
}

/// Does that with all items of a list.
fn form_all(infos: &mut [hb_glyph_info_t], masks: &FormMasks, mask: u32) {
    for info in infos.iter_mut() {
        form(info, masks, mask);
    }
}

/// Does that with an item.
fn form(info: &mut hb_glyph_info_t, masks: &FormMasks, mask: u32) {
    info.mask = in_form(masks, mask, info.mask);
}

/// A mask with a form, and with none of the others.
pub(crate) fn in_form(masks: &FormMasks, form: u32, mask: u32) -> u32 {
    mask & !masks.all() | form
}
