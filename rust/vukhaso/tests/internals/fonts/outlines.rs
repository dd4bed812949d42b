//! Tests of `font_outlines` and `outline_tables`. The boxes of charstrings are those that HarfBuzz's `hb-shape --show-extents` prints.

use vukhaso::internals::common::GlyphId;
use vukhaso::internals::font_outlines::charset::{predefined_charset, string_number, string_of};
use vukhaso::internals::font_outlines::standard_strings::standard_string;
use vukhaso::internals::font_outlines::{CffTable, Outlines};
use vukhaso::internals::font_variations::index_map::number_of_size;
use vukhaso::internals::glyph::GlyphExtents;
use vukhaso::internals::outline_tables::GlyfTables;
use vukhaso::internals::outline_tables::glyf::outline;
use vukhaso::internals::outline_tables::index::{index_count, index_item, index_size};

/// The numbers of a box: its left side, its top, its width and its height.
fn box_of(extents: Option<GlyphExtents>) -> Option<[i32; 4]> {
    let found = extents?;
    Some([found.x_bearing, found.y_bearing, found.width, found.height])
}

/// Outlines of two contours, of none, and of glyphs put together, each with a box; the last one is cut short.
static GLYF: [u8; 34] = [
    0, 2, 0, 10, 255, 236, 1, 44, 2, 188, 0, 0, // from (10, -20) to (300, 700)
    0, 0, 0, 1, 0, 2, 0, 3, 0, 4, //
    255, 255, 0, 5, 0, 6, 0, 1, 0, 2, // corners in another order
    0, 1,
];

/// Their places, as halves.
const LOCA: &[u8] = &[0, 0, 0, 6, 0, 11, 0, 16, 0, 17];

/// The same places in 32 bits.
const LONG_LOCA: &[u8] = &[
    0, 0, 0, 0, 0, 0, 0, 12, 0, 0, 0, 22, 0, 0, 0, 32, 0, 0, 0, 34,
];

/// The left side bearing of each glyph of a font of five, and its box.
static BOXES: [(Option<i16>, Option<[i32; 4]>); 5] = [
    (Some(15), Some([15, 700, 290, -720])),
    (Some(15), Some([0, 0, 0, 0])),
    (None, Some([1, 6, 4, -4])),
    (Some(15), Some([0, 0, 0, 0])),
    (Some(15), None),
];

/// The box of a glyph by the tables of outlines, and by all outlines of a font that has these alone.
fn boxes_of(
    loca: &[u8],
    has_long_offsets: bool,
    glyph: u16,
    bearing: Option<i16>,
) -> [Option<[i32; 4]>; 2] {
    let glyf = GlyfTables {
        glyf: &GLYF,
        loca,
        has_long_offsets,
        glyph_count: 5,
    };
    let outlines = Outlines::new(glyf, &[]);
    let glyph = GlyphId(glyph);
    [
        box_of(glyf.glyph_extents(glyph, bearing)),
        box_of(outlines.glyph_extents(glyph, bearing)),
    ]
}

#[test]
fn the_header_of_an_outline_names_its_box() {
    for (loca, is_long) in [(LOCA, false), (LONG_LOCA, true)] {
        for (number, &(bearing, found)) in (0..5).zip(&BOXES) {
            assert_eq!(
                boxes_of(loca, is_long, number, bearing),
                [found, found],
                "{number}, long {is_long}"
            );
        }
    }
    assert_eq!(
        outline(&GLYF, LOCA, false, GlyphId(3)),
        Some([0, 1].as_slice())
    );
}

#[test]
fn outlines_of_glyf_have_no_names() {
    let glyf = GlyfTables {
        glyf: &GLYF,
        loca: LOCA,
        has_long_offsets: false,
        glyph_count: 5,
    };
    assert!(Outlines::new(glyf, &[]).glyph_name(GlyphId(0)).is_none());
}

/// The example font of The Compact Font Format Specification (Appendix D).
static EXAMPLE: [u8; 147] = [
    1, 0, 4, 1, 0, 1, 1, 1, 19, 65, 66, 67, 68, 69, 70, 43, 84, 105, 109, 101, 115, 45, 82, 111,
    109, 97, 110, 0, 1, 1, 1, 31, 248, 27, 0, 248, 28, 2, 248, 29, 3, 248, 25, 4, 28, 111, 0, 13,
    251, 60, 251, 110, 250, 124, 250, 22, 5, 233, 17, 184, 241, 18, 0, 3, 1, 1, 8, 19, 24, 48, 48,
    49, 46, 48, 48, 55, 84, 105, 109, 101, 115, 32, 82, 111, 109, 97, 110, 84, 105, 109, 101, 115,
    0, 0, 0, 2, 1, 1, 2, 3, 14, 14, 125, 153, 249, 42, 153, 251, 118, 149, 247, 115, 139, 6, 247,
    154, 147, 252, 124, 140, 7, 125, 153, 248, 86, 149, 247, 94, 153, 8, 251, 110, 140, 248, 115,
    147, 247, 16, 139, 9, 167, 10, 223, 11, 247, 142, 20,
];

/// The example font, where it has so many glyphs.
fn example(glyph_count: u16) -> Option<CffTable<'static>> {
    CffTable::parse(&EXAMPLE, glyph_count)
}

/// The strings of the example font.
fn example_strings() -> &'static [u8] {
    example(2).map_or(&[], |cff| cff.strings)
}

/// The name of a glyph of the example font.
fn example_name(glyph: u16) -> Option<&'static [u8]> {
    example(2)?.glyph_name(GlyphId(glyph))
}

/// The box of a glyph of the example font.
fn example_box(glyph: u16) -> Option<[i32; 4]> {
    box_of(example(2)?.glyph_extents(GlyphId(glyph)))
}

#[test]
fn the_example_of_the_specification_is_read() {
    for (glyph_count, is_whole) in [(2, true), (3, false)] {
        assert_eq!(example(glyph_count).is_some(), is_whole, "{glyph_count}");
    }
    for (glyph, name, found) in [
        (0, Some(b".notdef".as_slice()), Some([0; 4])),
        (1, Some(b"space".as_slice()), Some([0; 4])),
        (2, None, None),
    ] {
        assert_eq!(example_name(glyph), name, "{glyph}");
        assert_eq!(example_box(glyph), found, "{glyph}");
    }
}

#[test]
fn the_example_has_strings() {
    let strings = example_strings();
    assert_eq!(index_count(strings), 3);
    assert_eq!(index_size(strings), Some(30));
    for (place, item) in [(1, Some(b"Times Roman".as_slice())), (3, None)] {
        assert_eq!(index_item(strings, place), item, "{place}");
    }
    assert_eq!(string_of(strings, 393), Some(b"Times".as_slice()));
}

/// A CFF font whose charstrings have every operator that draws, subroutines, a mask, fractions, and one that never ends.
static DRAWN: [u8; 331] = [
    1, 0, 4, 1, 0, 1, 1, 1, 5, 84, 101, 115, 116, 0, 1, 1, 1, 24, 29, 0, 0, 0, 67, 15, 29, 0, 0, 0,
    86, 17, 29, 0, 0, 0, 2, 29, 0, 0, 1, 59, 18, 0, 1, 1, 1, 9, 111, 119, 110, 95, 110, 97, 109,
    101, 0, 1, 1, 1, 9, 134, 133, 146, 147, 148, 149, 8, 11, 0, 0, 34, 0, 124, 0, 171, 0, 35, 0,
    36, 0, 37, 0, 38, 0, 39, 1, 135, 0, 10, 1, 1, 2, 19, 37, 44, 59, 61, 95, 147, 195, 216, 14,
    248, 136, 22, 129, 159, 21, 239, 247, 92, 109, 6, 144, 132, 150, 152, 5, 14, 149, 248, 136, 21,
    159, 169, 179, 89, 199, 209, 8, 149, 159, 169, 179, 189, 30, 14, 169, 247, 92, 204, 247, 85,
    14, 139, 159, 18, 149, 169, 23, 19, 192, 144, 4, 32, 10, 32, 29, 14, 33, 10, 255, 0, 0, 128, 0,
    255, 255, 255, 128, 0, 21, 255, 0, 10, 64, 0, 255, 0, 20, 128, 0, 5, 255, 255, 236, 0, 0, 255,
    255, 215, 192, 0, 5, 14, 146, 146, 21, 140, 141, 142, 143, 144, 145, 146, 147, 148, 149, 150,
    151, 189, 12, 35, 149, 159, 169, 179, 189, 199, 209, 12, 34, 140, 141, 142, 143, 144, 145, 146,
    147, 148, 12, 36, 140, 141, 142, 143, 144, 145, 146, 147, 148, 149, 150, 12, 37, 14, 146, 146,
    21, 140, 149, 159, 169, 179, 27, 140, 149, 159, 169, 179, 26, 149, 159, 169, 179, 189, 199,
    209, 219, 148, 31, 140, 141, 142, 143, 144, 145, 146, 147, 24, 140, 141, 142, 143, 144, 145,
    146, 59, 25, 144, 145, 146, 7, 14, 139, 139, 21, 251, 192, 252, 36, 5, 250, 255, 254, 255, 5,
    28, 58, 152, 28, 193, 128, 5, 14, 141, 19, 0, 2, 1, 1, 7, 9, 169, 179, 89, 199, 5, 11, 33, 10,
];

/// The names and boxes of its glyphs.
static DRAWINGS: [(&str, Option<[i32; 4]>); 10] = [
    (".notdef", Some([0, 0, 0, 0])),
    ("A", Some([490, 226, 100, -206])),
    ("grave", Some([10, 640, 180, -160])),
    ("Aacute", Some([40, 840, 550, -820])),
    ("B", Some([-25, 117, 55, -112])),
    ("C", None),
    ("D", Some([-9, 20, 20, -40])),
    ("E", Some([7, 90, 342, -83])),
    ("F", Some([7, 349, 299, -342])),
    ("own_name", Some([-300, 0, 16131, -17531])),
];

/// The outlines of the font.
fn drawn() -> Outlines<'static> {
    let glyf = GlyfTables {
        glyf: &[],
        loca: &[],
        has_long_offsets: false,
        glyph_count: 10,
    };
    Outlines::new(glyf, &DRAWN)
}

/// The name and the box of a glyph.
fn drawing_of(
    outlines: &Outlines<'static>,
    glyph: u16,
) -> (Option<&'static [u8]>, Option<[i32; 4]>) {
    let glyph = GlyphId(glyph);
    let found = box_of(outlines.glyph_extents(glyph, Some(15)));
    (outlines.glyph_name(glyph), found)
}

#[test]
fn a_charstring_is_run_for_its_box() {
    let outlines = drawn();
    for (glyph, &(name, found)) in (0..10).zip(&DRAWINGS) {
        assert_eq!(
            drawing_of(&outlines, glyph),
            (Some(name.as_bytes()), found),
            "{name}"
        );
    }
}

/// The left side and the top of a path, in 65,536ths.
fn corner_of(outlines: &Outlines<'_>, glyph: u16) -> Option<(i64, i64)> {
    let bounds = outlines.cff?.path_bounds(GlyphId(glyph))?;
    Some((bounds.min.x, bounds.max.y))
}

#[test]
fn paths_have_bounds() {
    let outlines = drawn();
    assert_eq!(corner_of(&outlines, 1), Some((32112640, 14811136)));
}

/// Predefined charsets, glyphs, and the names that they have by The Compact Font Format Specification (Appendix C).
static PREDEFINED: [(u32, u16, &str); 8] = [
    (0, 228, "zcaron"),
    (0, 229, ".notdef"),
    (1, 2, "exclamsmall"),
    (1, 12, "comma"),
    (1, 165, "Ydieresissmall"),
    (2, 3, "dollarsuperior"),
    (2, 47, "hyphensuperior"),
    (2, 86, "commainferior"),
];

#[test]
fn a_predefined_charset_names_glyphs() {
    for &(number, glyph, name) in &PREDEFINED {
        let charset = predefined_charset(number).unwrap_or(&[]);
        let string = string_number(charset, GlyphId(glyph));
        assert_eq!(string_of(&[], string), Some(name.as_bytes()), "{name}");
    }
    assert!(predefined_charset(3).is_none());
}

#[test]
fn a_number_has_up_to_four_bytes() {
    let table = [1, 2, 3, 4];
    let read = [1, 2, 3, 4, 5].map(|size| number_of_size(size, &table, 0));
    assert_eq!(
        read,
        [Some(1), Some(258), Some(66051), Some(16909060), None]
    );
}

#[test]
fn there_are_391_standard_strings() {
    assert_eq!(standard_string(0), Some(".notdef"));
    assert_eq!(standard_string(34), Some("A"));
    assert_eq!(standard_string(390), Some("Semibold"));
    assert!(standard_string(391).is_none());
}
