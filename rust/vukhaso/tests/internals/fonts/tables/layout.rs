use vukhaso::internals::common::GlyphId;
use vukhaso::internals::font_tables::bytes::part;
use vukhaso::internals::font_tables::class_definition::ClassDefinition;
use vukhaso::internals::font_tables::coverage::Coverage;
use vukhaso::internals::font_tables::gdef::Gdef;
use vukhaso::internals::font_tables::ignored_gdef::is_ignored;

/// The specification's example of a coverage table of format 1.
const LISTED: &[u8] = &[0, 1, 0, 5, 0, 0x38, 0, 0x3B, 0, 0x41, 0, 0x42, 0, 0x4A];

/// The same, cut behind the first half of its third glyph.
const CUT: &[u8] = &[0, 1, 0, 5, 0, 0x38, 0, 0x3B, 0];

/// The specification's example of format 2, with a range of one glyph behind it.
const RANGES: &[u8] = &[0, 2, 0, 2, 0, 0x4E, 0, 0x57, 0, 0, 0, 0x60, 0, 0x60, 0, 10];

/// Glyphs that do not rise.
const UNSORTED: &[u8] = &[0, 1, 0, 3, 0, 7, 0, 3, 0, 9];

/// Coverage tables, glyphs, and their indexes.
static COVERED: [(&[u8], u16, Option<u32>); 14] = [
    (LISTED, 0x38, Some(0)),
    (LISTED, 0x41, Some(2)),
    (LISTED, 0x4A, Some(4)),
    (LISTED, 0x43, None),
    (RANGES, 0x4E, Some(0)),
    (RANGES, 0x57, Some(9)),
    (RANGES, 0x58, None),
    (RANGES, 0x60, Some(10)),
    (CUT, 0x3B, Some(1)),
    (CUT, 0x41, None),
    (UNSORTED, 7, Some(0)),
    (UNSORTED, 9, Some(2)),
    (&[0, 3, 0, 1, 0, 5], 5, None),
    (&[], 0, None),
];

#[test]
fn a_covered_glyph_has_an_index() {
    for &(table, glyph, index) in &COVERED {
        assert_eq!(
            Coverage::new(table).index(GlyphId(glyph)),
            index,
            "{glyph} in {table:?}"
        );
    }
}

/// A coverage that lists 65 glyphs, which rise but for the last one.
fn coverage_with_last(last: u8) -> [u8; 134] {
    let mut table = [0; 134];
    table[1] = 1;
    table[3] = 65;
    for row in 0..64 {
        table[5 + 2 * row] = row as u8;
    }
    table[133] = last;
    table
}

/// A table of 65 ranges, whose last glyphs rise but for the last one.
fn ranges_with_last(last: u8) -> [u8; 394] {
    let mut table = [0; 394];
    table[1] = 2;
    table[3] = 65;
    for row in 0..64 {
        table[7 + 6 * row] = row as u8;
    }
    table[391] = last;
    table
}

/// Whether the first bytes of a table are quick to search as a coverage, and as classes.
fn are_quick(table: &[u8], size: usize) -> (bool, bool) {
    let table = part(table, 0, size);
    (
        Coverage::new(table).is_quick(),
        ClassDefinition::new(table).is_quick(),
    )
}

#[test]
fn rows_that_rise_or_are_few_are_quick() {
    assert!(are_quick(&coverage_with_last(64), 134).0);
    assert!(!are_quick(&coverage_with_last(62), 134).0);
    assert!(are_quick(&coverage_with_last(62), 132).0);
    assert_eq!(are_quick(&ranges_with_last(64), 394), (true, true));
    assert_eq!(are_quick(&ranges_with_last(62), 394), (false, false));
    assert!(are_quick(&ranges_with_last(62), 388).1);
    assert!(are_quick(CLASSES, 14).1);
}

/// The head of the specification's example of a class definition table of format 1: the glyphs from 0x32 on.
const CLASSES: &[u8] = &[0, 1, 0, 0x32, 0, 4, 0, 0, 0, 1, 0, 0, 0, 2];

/// Its example of format 2.
const CLASS_RANGES: &[u8] = &[
    0, 2, 0, 3, 0, 0x30, 0, 0x31, 0, 2, 0, 0x40, 0, 0x41, 0, 3, 0, 0xD2, 0, 0xD3, 0, 1,
];

/// Class definition tables, glyphs, and their classes.
static CLASSIFIED: [(&[u8], u16, u16); 9] = [
    (CLASSES, 0x33, 1),
    (CLASSES, 0x35, 2),
    (CLASSES, 0x31, 0),
    (CLASSES, 0x36, 0),
    (CLASS_RANGES, 0x31, 2),
    (CLASS_RANGES, 0x40, 3),
    (CLASS_RANGES, 0xD3, 1),
    (CLASS_RANGES, 0xD4, 0),
    (&[], 1, 0),
];

#[test]
fn a_glyph_has_a_class() {
    for &(table, glyph, class) in &CLASSIFIED {
        assert_eq!(
            ClassDefinition::new(table).class(GlyphId(glyph)),
            class,
            "{glyph} in {table:?}"
        );
    }
}

/// A table `GDEF` of version 1.2: classes at 14 (glyph 1 a base, 2 a ligature, 3 a mark), attachment classes at 26 (glyph 3 in
/// class 5), and at 34 a set of marks with glyph 3.
static GDEF: [u8; 48] = [
    0, 1, 0, 2, 0, 14, 0, 0, 0, 0, 0, 26, 0, 34, // header
    0, 1, 0, 1, 0, 3, 0, 1, 0, 2, 0, 3, // classes
    0, 1, 0, 3, 0, 1, 0, 5, // attachment classes
    0, 1, 0, 1, 0, 0, 0, 8, 0, 1, 0, 1, 0, 3, // sets of marks
];

/// Glyphs, their classes, attachment classes and properties.
static GLYPHS: [(u16, [u16; 3]); 4] = [
    (1, [1, 0, 0x02]),
    (2, [2, 0, 0x04]),
    (3, [3, 5, 0x0508]),
    (4, [0, 0, 0]),
];

/// The class of a glyph, its attachment class and its properties.
fn classes_of(glyph: GlyphId) -> [u16; 3] {
    let gdef = Gdef::new(&GDEF);
    [
        gdef.glyph_class(glyph),
        gdef.mark_attachment_class(glyph),
        gdef.glyph_props(glyph),
    ]
}

/// Whether a table has classes of glyphs.
fn has_classes(gdef: &[u8]) -> bool {
    Gdef::new(gdef).has_glyph_classes()
}

#[test]
fn gdef_has_classes() {
    for &(number, expected) in &GLYPHS {
        assert_eq!(classes_of(GlyphId(number)), expected, "{number}");
    }
    assert!(has_classes(&GDEF));
    assert!(!has_classes(&[]));
}

#[test]
fn gdef_has_sets_of_marks() {
    let gdef = Gdef::new(&GDEF);
    assert_eq!(gdef.mark_glyph_set(0).index(GlyphId(3)), Some(0));
    assert!(gdef.mark_glyph_set(1).index(GlyphId(3)).is_none());
}

/// Sizes of `GDEF`, `GSUB` and `GPOS`, and whether HarfBuzz ignores the first: the second is that of Tahoma of Windows 8.
static SIZES: [([usize; 3], bool); 3] = [
    ([442, 2874, 42038], true),
    ([898, 12554, 46470], true),
    ([898, 12554, 46471], false),
];

#[test]
fn a_wrong_gdef_is_ignored() {
    for &([gdef, gsub, gpos], ignored) in &SIZES {
        assert_eq!(
            is_ignored(gdef, gsub, gpos),
            ignored,
            "{gdef}, {gsub}, {gpos}"
        );
    }
}
