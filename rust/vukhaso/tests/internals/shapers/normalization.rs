//! What is kept of characters that are normalized with a font.

use crate::Fail;
use crate::shapers::upright::upright;
use vukhaso::internals::buffer::{BufferClusterLevel, UnicodeBuffer, hb_buffer_t, hb_glyph_info_t};
use vukhaso::internals::common::GlyphId;
use vukhaso::internals::ot_normalization::normalize;
use vukhaso::internals::ot_shape::{Face, OwnFunctions};
use vukhaso::internals::script_items::allows_any_order;
use vukhaso::internals::script_items::glyph_info::{
    clear_variation_selector, is_continuation, is_nonspacing_mark, is_unicode_space,
    is_variation_selector, set_unicode_props, space_fallback,
};
use vukhaso::internals::script_items::item::{
    general_category, is_unicode_mark, modified_combining_class, set_modified_combining_class,
};
use vukhaso::internals::script_shapers::{ScriptPlan, ScriptShaper};

/// The characters of a text with their properties, in a buffer whose invisible glyph is 1.
fn buffer_of(text: &str) -> hb_buffer_t {
    let mut characters = UnicodeBuffer::new();
    assert_eq!(characters.push_str(text), Ok(true));
    let mut buffer = characters.into_buffer();
    buffer.scratch_flags = set_properties(buffer.info_slice_mut());
    buffer.invisible = Some(GlyphId(1));
    buffer
}

/// Sets the properties of characters; the scratch flags of their text.
fn set_properties(infos: &mut [hb_glyph_info_t]) -> u32 {
    let mut scratch_flags = 0;
    for info in infos.iter_mut() {
        set_unicode_props(info, &mut scratch_flags);
    }
    scratch_flags
}

/// A plan in which the font does all.
fn plan() -> ScriptPlan {
    ScriptPlan {
        shaper: ScriptShaper::Default,
        is_mongolian: false,
        has_private_use: false,
        has_stch: false,
        does_fallback: false,
        has_gpos_mark: false,
        rlig_mask: 0,
        masks: [0; 8],
    }
}

/// The general category, the combining class, and whether it is a mark, one without width, and one that
/// continues what stands before it.
fn mark_of(info: &hb_glyph_info_t) -> (u32, u16, [bool; 3]) {
    let marks = [
        is_unicode_mark(info),
        is_nonspacing_mark(info),
        is_continuation(info),
    ];
    (
        general_category(info),
        modified_combining_class(info),
        marks,
    )
}

/// Whether it is a space, and of which width.
fn space_of(info: &hb_glyph_info_t) -> (bool, u8) {
    (is_unicode_space(info), space_fallback(info))
}

/// Asserts what is kept of a letter, a mark and a space.
fn assert_kept(letter: &hb_glyph_info_t, mark: &hb_glyph_info_t, space: &hb_glyph_info_t) {
    assert_eq!(mark_of(letter), (5, 0, [false; 3]));
    assert_eq!(mark_of(mark), (12, 230, [true; 3]));
    assert_eq!(space_of(letter), (false, 0));
    assert_eq!(space_of(space), (true, 1));
}

/// The combining class after it was set.
fn class_set(info: &mut hb_glyph_info_t, class: u16) -> u16 {
    set_modified_combining_class(info, class);
    modified_combining_class(info)
}

/// A variation selector becomes a mark.
fn assert_selector_is_cleared(selector: &mut hb_glyph_info_t) {
    assert!(is_variation_selector(selector));
    clear_variation_selector(selector);
    assert!(is_nonspacing_mark(selector));
    assert!(!is_variation_selector(selector));
}

/// Asserts what is kept of the five characters of a text, and what may be set.
fn assert_properties(infos: &mut [hb_glyph_info_t]) {
    assert_eq!(infos.len(), 5);
    if let [letter, mark, space, _, selector] = infos {
        assert_kept(letter, mark, space);
        assert_eq!(class_set(letter, 220), 0, "a letter has no class");
        assert_eq!(class_set(mark, 220), 220);
        assert_selector_is_cleared(selector);
    }
}

/// A text that is normalized with the font's own functions.
fn normalized(face: &Face, text: &str) -> hb_buffer_t {
    let mut buffer = buffer_of(text);
    assert_eq!(
        normalize(&mut buffer, &OwnFunctions { face }, &plan()),
        Ok(true)
    );
    buffer
}

/// A mark, a space, and a variation selector that the font does not know.
#[test]
fn properties_are_kept() -> Result<(), Fail> {
    let face = upright()?;
    let mut buffer = normalized(&face, "a\u{301}\u{2003}b\u{fe01}");
    assert!(!buffer.have_output());
    assert_properties(buffer.info_slice_mut());
    Ok(())
}

/// The levels at which clusters stay in order, and the one at which they need not.
static LEVELS: [(BufferClusterLevel, bool); 3] = [
    (BufferClusterLevel::MonotoneGraphemes, false),
    (BufferClusterLevel::MonotoneCharacters, false),
    (BufferClusterLevel::Characters, true),
];

/// Whether clusters may stand in any order at a level.
fn is_any_order(level: BufferClusterLevel) -> bool {
    let mut text = UnicodeBuffer::new();
    text.set_cluster_level(level);
    allows_any_order(&text.into_buffer())
}

#[test]
fn clusters_may_stand_in_any_order() {
    for (level, wanted) in &LEVELS {
        assert_eq!(is_any_order(*level), *wanted, "{wanted}");
    }
}
