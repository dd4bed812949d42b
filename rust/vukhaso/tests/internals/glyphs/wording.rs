//! Tests of how values are printed by `Debug`.
use std::fmt::Debug;
use vukhaso::internals::glyph::{
    BufferFlags, CombiningClasses, Compositions, Decompositions, GlyphExtents, GlyphPosition,
    GlyphPropsFlags, Mirrors, SerializeFlags, UnicodeProps, hb_glyph_info_t,
    hb_unicode_general_category_t,
};
use vukhaso::memory::String;

fn is_printed<T: Debug>(value: &T, want: &str) -> bool {
    String::format(format_args!("{value:?}")).is_ok_and(|text| text.as_str() == want)
}

#[test]
fn glyphs_are_printed_by_their_fields() {
    assert!(is_printed(
        &hb_glyph_info_t::default(),
        "hb_glyph_info_t { glyph_id: 0, mask: 0, cluster: 0, var1: 0, var2: 0 }"
    ));
    assert!(is_printed(
        &GlyphPosition::default(),
        "GlyphPosition { x_advance: 0, y_advance: 0, x_offset: 0, y_offset: 0, var: 0 }"
    ));
    assert!(is_printed(
        &GlyphExtents::default(),
        "GlyphExtents { x_bearing: 0, y_bearing: 0, width: 0, height: 0 }"
    ));
}

#[test]
fn flags_are_printed_by_their_bits() {
    assert!(is_printed(&BufferFlags::VERIFY, "BufferFlags(32)"));
    assert!(is_printed(&SerializeFlags::DEFINED, "SerializeFlags(63)"));
    assert!(is_printed(&UnicodeProps::default(), "UnicodeProps(0)"));
    assert!(is_printed(
        &GlyphPropsFlags::BASE_GLYPH,
        "GlyphPropsFlags(2)"
    ));
    let category = hb_unicode_general_category_t::LowercaseLetter;
    assert!(is_printed(&category, "LowercaseLetter"));
}

#[test]
fn tables_are_printed_by_their_rows() {
    let classes = CombiningClasses::new(&[('a', 1)]);
    let text = "Some(CombiningClasses { rows: [('a', 1)] })";
    assert!(is_printed(&classes, text));
    let mirrors = Mirrors::new(&[('(', ')')]);
    let text = "Some(Mirrors { rows: [('(', ')')] })";
    assert!(is_printed(&mirrors, text));
}

#[test]
fn tables_of_pairs_are_printed_by_their_rows() {
    let compositions = Compositions::new(&[(('a', 'b'), 'c')]);
    let text = "Some(Compositions { rows: [(('a', 'b'), 'c')] })";
    assert!(is_printed(&compositions, text));
    let decompositions = Decompositions::new(&[('c', 'a', None)]);
    let text = "Some(Decompositions { rows: [('c', 'a', None)] })";
    assert!(is_printed(&decompositions, text));
}
