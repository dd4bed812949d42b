// Written by tools/plain_rust from crates/ot_positions. Do not edit.

//! The classes by which marks are placed in a font that does not position them (HarfBuzz's
//! `_hb_ot_shape_fallback_mark_position_recategorize_marks`; Unicode Standard, "Combining Classes").

use crate::buffer::{hb_buffer_t, hb_glyph_info_t};
use crate::script_items::glyph_info::is_nonspacing_mark;
use crate::script_items::item::{modified_combining_class, set_modified_combining_class};

/// Says of each mark without width where it stands, by a class from 200 on, in place of the class that
/// it is ordered by. The items are still characters.
///
/// # Requires
///
/// That no output is open.
///
/// - `buffer.old.have_output ≡ false`
///
/// # Proved
///
/// ```text
/// ensures is { buffer.new ≡ record buffer.old { input = map recategorized buffer.old.input } }
/// ensures closed { buffer.new.have_output ≡ false }
/// ensures keeps { KeepsClusters buffer.old buffer.new }
/// ```
#[inline]
pub fn recategorize_marks(buffer: &mut hb_buffer_t) {
    debug_assert!(!buffer.have_output());
    recategorize_all(buffer.info_slice_mut());
}

/// Says of each of the marks without width where it stands.
fn recategorize_all(infos: &mut [hb_glyph_info_t]) {
    for info in infos.iter_mut() {
        recategorize(info);
    }
}

/// Says of a mark without width where it stands.
fn recategorize(info: &mut hb_glyph_info_t) {
    if is_nonspacing_mark(info) {
        let class = fallback_class(info.glyph_id, modified_combining_class(info));
        set_modified_combining_class(info, class);
    }
}

/// The class that says where a mark stands: of Thai and Lao by the character, and of Hebrew, Arabic,
/// Syriac and Tibetan by the class that the mark is ordered by.
fn fallback_class(character: u32, class: u16) -> u16 {
    placed_by_class(placed_by_character(character, class))
}

/// The class of a mark of Thai or Lao that has no class, and of the Thai virama; that of any other mark
/// stays.
fn placed_by_character(character: u32, class: u16) -> u16 {
    if class == 0 {
        class_of_character(character)
    } else if class < 200 && character == 0x0E3A {
        222
    } else {
        class
    }
}

/// The class of a mark of Thai or Lao, or 0.
fn class_of_character(character: u32) -> u16 {
    if is_thai_above(character) {
        232
    } else if is_lao_above(character) {
        230
    } else if character == 0x0EBC {
        220
    } else {
        0
    }
}

/// Whether a mark of Thai stands above its letter.
fn is_thai_above(character: u32) -> bool {
    character == 0x0E31
        || within(0x0E34, 0x0E37, character)
        || character == 0x0E47
        || within(0x0E4C, 0x0E4E, character)
}

/// Whether a mark of Lao stands above its letter.
fn is_lao_above(character: u32) -> bool {
    character == 0x0EB1
        || within(0x0EB4, 0x0EB7, character)
        || character == 0x0EBB
        || within(0x0ECC, 0x0ECD, character)
}

/// The class by which a mark is placed, by the class that it is ordered by.
fn placed_by_class(class: u16) -> u16 {
    let ordered = u32::from(class);
    if is_ordered_below(ordered) {
        220
    } else if is_ordered_above(ordered) {
        230
    } else {
        placed_at_a_side(class)
    }
}

/// The class of the few marks that stand at a side of their letter, or are joined to it; any other
/// class stays.
fn placed_at_a_side(class: u16) -> u16 {
    match class {
        3 => 222,
        10 => 232,
        11 => 228,
        13 => 214,
        14 => 228,
        107 => 232,
        _ => class,
    }
}

/// Whether marks of this class stand below: most points of Hebrew, kasra, and vowels of Lao and
/// Tibetan.
fn is_ordered_below(class: u32) -> bool {
    within(15, 25, class)
        || class == 30
        || class == 33
        || class == 118
        || class == 129
        || class == 131
}

/// Whether marks of this class stand above: most marks of Arabic and Syriac, and tones of Lao.
fn is_ordered_above(class: u32) -> bool {
    within(26, 29, class)
        || within(31, 32, class)
        || within(34, 36, class)
        || class == 122
        || class == 132
}

/// Whether a number is one of these.
fn within(low: u32, high: u32, number: u32) -> bool {
    low <= number && number <= high
}
