//! Characters and their glyphs, by the table `cmap`. What is expected comes from the OpenType specification, from the
//! tests of Annotated OpenType Specification that HarfBuzz has, or from HarfBuzz itself over the same table.

use crate::Fail;
use crate::fonts::bytes::bytes_of;
use vukhaso::internals::common::GlyphId;
use vukhaso::internals::font_cmap::{CharacterMap, Encoding, GlyphVariant};

/// A table in numbers of 16 bits, the font page of `OS/2`, and the glyphs of characters, 0 where there is none.
struct Case {
    name: &'static str,
    cmap: &'static [u16],
    font_page: u16,
    glyphs: &'static [(u32, u16)],
}

static CASES: [Case; 17] = [
    // the example of the OpenType specification, "Format 4"
    Case {
        name: "segments",
        cmap: &[
            0, 1, 3, 1, 0, 12, 4, 48, 0, 8, 8, 4, 0, 20, 90, 480, 0xFFFF, 0, 10, 30, 153, 0xFFFF,
            0xFFF7, 0xFFEE, 0xFFB0, 1, 0, 0, 0, 0,
        ],
        font_page: 0,
        glyphs: &[
            (0x0009, 0),
            (0x000A, 1),
            (0x0014, 11),
            (0x0015, 0),
            (0x001D, 0),
            (0x001E, 12),
            (0x005A, 72),
            (0x005B, 0),
            (0x0099, 73),
            (0x01E0, 400),
            (0x01E1, 0),
            (0xFFFF, 0),
        ],
    },
    // `cmap4_font4.otf` of the tests of Annotated OpenType Specification
    Case {
        name: "segments that wrap",
        cmap: &[
            0, 1, 3, 1, 0, 12, 4, 40, 0, 6, 8, 2, 0xFFFE, 0x03E8, 0xB02C, 0xFE4C, 0, 100, 0xAFC8,
            0xFDE8, 0xFE0C, 0xFE0C, 500, 0, 0, 0,
        ],
        font_page: 0,
        glyphs: &[
            (0x0063, 0),
            (0x0064, 65136),
            (0x01F3, 65535),
            (0x01F4, 0),
            (0x01F5, 1),
            (0x03E8, 500),
            (0x03E9, 0),
            (0xAFC7, 0),
            (0xAFC8, 44500),
            (0xB02C, 44600),
            (0xB02D, 0),
        ],
    },
    // glyphs behind the range offsets, of which one is 0, and deltas
    Case {
        name: "range offsets",
        cmap: &[
            0, 1, 3, 1, 0, 12, 4, 52, 0, 6, 0, 0, 0, 67, 99, 0xFFFF, 0, 65, 97, 0xFFFF, 0, 0xFFFE,
            1, 6, 10, 0, 5, 0, 7, 2, 1, 9,
        ],
        font_page: 0,
        glyphs: &[
            (0x0041, 5),
            (0x0042, 0),
            (0x0043, 7),
            (0x0044, 0),
            (0x0061, 0),
            (0x0062, 65535),
            (0x0063, 7),
        ],
    },
    // `cmap6_font1.otf`
    Case {
        name: "trimmed table",
        cmap: &[0, 1, 3, 1, 0, 12, 6, 16, 0, 34, 3, 17, 56, 12],
        font_page: 0,
        glyphs: &[
            (0x0021, 0),
            (0x0022, 17),
            (0x0023, 56),
            (0x0024, 12),
            (0x0025, 0),
        ],
    },
    // `cmap10_font1.otf`
    Case {
        name: "trimmed array",
        cmap: &[
            0, 1, 3, 1, 0, 12, 10, 0, 0, 26, 0, 0, 16, 0x9423, 0, 3, 26, 27, 32,
        ],
        font_page: 0,
        glyphs: &[
            (0x9422, 0),
            (0x109422, 0),
            (0x109423, 26),
            (0x109424, 27),
            (0x109425, 32),
            (0x109426, 0),
        ],
    },
    // `cmap12_font1.otf`
    Case {
        name: "groups",
        cmap: &[
            0, 1, 3, 1, 0, 12, 12, 0, 0, 40, 0, 0, 0, 2, 16, 0x1723, 16, 0x1727, 0, 23, 16, 0x2523,
            16, 0x2527, 0, 53,
        ],
        font_page: 0,
        glyphs: &[
            (0x101722, 0),
            (0x101723, 23),
            (0x101724, 24),
            (0x101727, 27),
            (0x101728, 0),
            (0x102523, 53),
            (0x102527, 57),
            (0x102528, 0),
        ],
    },
    // segments that overlap: bisection finds the one in the middle first
    Case {
        name: "overlapping segments",
        cmap: &[
            0, 1, 3, 1, 0, 12, 4, 40, 0, 6, 0, 0, 0, 0x50, 0x60, 0x70, 0, 0x41, 0x41, 0x41, 0, 100,
            200, 0, 0, 0,
        ],
        font_page: 0,
        glyphs: &[(0x0041, 165), (0x0060, 196), (0x0061, 297), (0x0071, 0)],
    },
    // groups of which two are swapped: what stands on the wrong side is missed
    Case {
        name: "swapped groups",
        cmap: &[
            0, 1, 3, 10, 0, 12, 12, 0, 0, 52, 0, 0, 0, 3, 0, 0x51, 0, 0x51, 0, 6, 0, 0x41, 0, 0x41,
            0, 5, 0, 0x61, 0, 0x61, 0, 7,
        ],
        font_page: 0,
        glyphs: &[(0x0041, 5), (0x0051, 0), (0x0061, 7)],
    },
    // a group that ends before it begins lies behind the codes before its first one
    Case {
        name: "a group that is turned round",
        cmap: &[
            0, 1, 3, 10, 0, 12, 12, 0, 0, 52, 0, 0, 0, 3, 0, 0x41, 0, 0x41, 0, 5, 0, 0x51, 0, 0x31,
            0, 6, 0, 0x61, 0, 0x61, 0, 7,
        ],
        font_page: 0,
        glyphs: &[(0x0041, 5), (0x0051, 0), (0x0061, 7)],
    },
    // format 13
    Case {
        name: "many-to-one groups",
        cmap: &[
            0, 1, 3, 10, 0, 12, 13, 0, 0, 40, 0, 0, 0, 2, 0, 65, 0, 90, 0, 7, 1, 0xF600, 1, 0xF64F,
            0, 9,
        ],
        font_page: 0,
        glyphs: &[
            (0x0040, 0),
            (0x0041, 7),
            (0x005A, 7),
            (0x005B, 0),
            (0x1F600, 9),
            (0x1F64F, 9),
            (0x1F650, 0),
        ],
    },
    // a symbol font: characters up to U+00FF have codes above 0xF000 too
    Case {
        name: "symbols",
        cmap: &[0, 1, 3, 0, 0, 12, 6, 18, 0, 0xF0FE, 4, 1, 2, 3, 4],
        font_page: 0,
        glyphs: &[
            (0x00FD, 0),
            (0x00FE, 1),
            (0x00FF, 2),
            (0x0100, 0),
            (0x0101, 0),
            (0xF0FE, 1),
            (0xF100, 3),
            (0xF101, 4),
        ],
    },
    // font page 0xB200
    Case {
        name: "simplified Arabic",
        cmap: &[0, 1, 3, 0, 0, 12, 6, 14, 0, 0xF141, 2, 1, 2],
        font_page: 0xB200,
        glyphs: &[
            (0x0041, 0),
            (0x0627, 1),
            (0xFE8D, 1),
            (0xF141, 1),
            (0xF142, 2),
        ],
    },
    // font page 0xB300
    Case {
        name: "traditional Arabic",
        cmap: &[0, 1, 3, 0, 0, 12, 6, 14, 0, 0xF241, 2, 1, 2],
        font_page: 0xB300,
        glyphs: &[
            (0x0041, 0),
            (0x0627, 1),
            (0xFE8D, 1),
            (0xF241, 1),
            (0xF242, 2),
        ],
    },
    // font page 0xB100: no other codes
    Case {
        name: "Hebrew symbols",
        cmap: &[0, 1, 3, 0, 0, 12, 6, 14, 0, 0xF141, 2, 1, 2],
        font_page: 0xB100,
        glyphs: &[(0x0041, 0), (0x0627, 0), (0xF141, 1)],
    },
    Case {
        name: "Macintosh Roman",
        cmap: &[0, 1, 1, 0, 0, 12, 6, 18, 0, 126, 4, 1, 2, 3, 4],
        font_page: 0,
        glyphs: &[
            (0x007E, 1),
            (0x007F, 2),
            (0x0080, 0),
            (0x0081, 0),
            (0x00C4, 3),
            (0x00C5, 4),
        ],
    },
    // of another encoding of the Macintosh ASCII alone is read
    Case {
        name: "Macintosh Japanese",
        cmap: &[0, 1, 1, 1, 0, 12, 6, 18, 0, 126, 4, 1, 2, 3, 4],
        font_page: 0,
        glyphs: &[
            (0x007E, 1),
            (0x007F, 2),
            (0x0080, 0),
            (0x0081, 0),
            (0x00C4, 0),
            (0x00C5, 0),
        ],
    },
    // the groups of the second subtable do not all lie in the table, so the first one is taken
    Case {
        name: "a subtable that is cut short",
        cmap: &[
            0, 2, 0, 3, 0, 20, 3, 10, 0, 32, 6, 12, 0, 65, 1, 1, 12, 0, 0, 40, 0, 0, 0, 2, 0, 65,
            0, 90, 0, 7,
        ],
        font_page: 0,
        glyphs: &[(0x0041, 1), (0x0042, 0)],
    },
];

/// The number of a character's glyph, or 0.
fn glyph_of(map: &CharacterMap, character: u32) -> u16 {
    map.glyph_index(character).map_or(0, |glyph| glyph.0)
}

/// The characters of a table.
fn map_of(cmap: &[u8], font_page: u16) -> CharacterMap<'_> {
    CharacterMap::parse(cmap, font_page)
}

#[test]
fn glyphs_of_characters() -> Result<(), Fail> {
    for case in &CASES {
        let bytes = bytes_of(case.cmap)?;
        let map = map_of(&bytes, case.font_page);
        for &(character, glyph) in case.glyphs {
            let found = glyph_of(&map, character);
            assert_eq!(found, glyph, "{}: U+{:04X}", case.name, character);
        }
    }
    Ok(())
}

/// Two encodings of a font in the order of its table, and the one whose subtable is used: the first (1) or the second.
struct Preference {
    name: &'static str,
    first: (u16, u16),
    second: (u16, u16),
    used: u16,
}

static PREFERENCES: [Preference; 10] = [
    Preference {
        name: "symbols before all of Unicode",
        first: (3, 0),
        second: (3, 10),
        used: 1,
    },
    Preference {
        name: "Windows before Unicode 6",
        first: (0, 6),
        second: (3, 10),
        used: 2,
    },
    Preference {
        name: "Unicode 6 before Unicode 2",
        first: (0, 4),
        second: (0, 6),
        used: 2,
    },
    Preference {
        name: "all characters before the first 65,536",
        first: (0, 4),
        second: (3, 1),
        used: 1,
    },
    Preference {
        name: "Windows before Unicode 2",
        first: (0, 3),
        second: (3, 1),
        used: 2,
    },
    Preference {
        name: "Unicode 2 before ISO 10646",
        first: (0, 2),
        second: (0, 3),
        used: 2,
    },
    Preference {
        name: "ISO 10646 before Unicode 1.1",
        first: (0, 1),
        second: (0, 2),
        used: 2,
    },
    Preference {
        name: "Unicode 1.1 before Unicode 1.0",
        first: (0, 0),
        second: (0, 1),
        used: 2,
    },
    Preference {
        name: "Unicode before the Macintosh",
        first: (0, 0),
        second: (1, 0),
        used: 1,
    },
    Preference {
        name: "Macintosh Roman before other encodings",
        first: (1, 0),
        second: (1, 1),
        used: 1,
    },
];

#[test]
fn one_of_two_subtables() -> Result<(), Fail> {
    for row in &PREFERENCES {
        let (a, b) = (row.first, row.second);
        // each subtable has one glyph, that of the letter A
        let cmap = [
            0, 2, a.0, a.1, 0, 20, b.0, b.1, 0, 32, 6, 12, 0, 65, 1, 1, 6, 12, 0, 65, 1, 2,
        ];
        let bytes = bytes_of(&cmap)?;
        let used = glyph_of(&map_of(&bytes, 0), 65);
        assert_eq!(used, row.used, "{}", row.name);
    }
    Ok(())
}

/// The table of `cmap0_font1.otf`, which has three glyphs.
#[test]
fn a_byte_for_each_code() {
    let mut cmap = [0; 274];
    cmap[..18].copy_from_slice(&[0, 0, 0, 1, 0, 3, 0, 1, 0, 0, 0, 12, 0, 0, 1, 6, 0, 0]);
    cmap[18 + 0x34..18 + 0x37].copy_from_slice(&[17, 56, 12]);
    let map = map_of(&cmap, 0);
    assert_eq!(map.encoding, Encoding::Unicode);
    for (character, glyph) in [(0x33, 0), (0x34, 17), (0x36, 12), (0x134, 0)] {
        assert_eq!(glyph_of(&map, character), glyph, "U+{character:04X}");
    }
}

/// The table of `cmap14_font1.otf`: a selector with two default ranges, one of four characters and one of one, and two
/// other glyphs.
static VARIATIONS: [u8; 99] = [
    0, 0, 0, 2, 0, 0, 0, 5, 0, 0, 0, 0x34, 0, 3, 0, 1, 0, 0, 0, 0x14, 0, 4, 0, 0x20, 0, 0, 0, 4, 0,
    2, 0, 0, 0, 2, 0x4E, 9, 0xFF, 0xFF, 0, 0, 0x4E, 0, 0xFF, 0xFF, 0xB2, 0x0A, 0, 1, 0, 0, 0, 0, 0,
    0x0E, 0, 0, 0, 0x2F, 0, 0, 0, 1, 0x0E, 1, 0, 0, 0, 0, 0x23, 0, 0, 0, 0x15, 0, 0, 0, 2, 0, 0x4E,
    0x10, 0, 0x19, 0, 0x4E, 0x11, 0, 0x1A, 0, 0, 0, 2, 0, 0x4E, 0, 0, 0, 0x4E, 3, 3,
];

/// Characters, selectors, and what the table says of the two.
static VARIANTS: [(u32, u32, GlyphVariant); 4] = [
    (0x4E00, 0xE0100, GlyphVariant::UseDefault),
    (0x4E10, 0xE0100, GlyphVariant::Found(GlyphId(25))),
    (0x4E01, 0xE0100, GlyphVariant::NotFound),
    (0x4E00, 0xE0101, GlyphVariant::NotFound),
];

/// What a table says of a character and a selector.
fn variant_of(map: &CharacterMap, character: u32, selector: u32) -> GlyphVariant {
    map.glyph_variant(character, selector)
}

/// Characters, selectors, and the glyph of the two.
static SEQUENCES: [(u32, u32, Option<u16>); 3] = [
    (0x4E03, 0xE0100, Some(13)),
    (0x4E11, 0xE0100, Some(26)),
    (0x4E01, 0xE0100, None),
];

/// The glyph of a character and a selector.
fn sequence_of(map: &CharacterMap, character: u32, selector: u32) -> Option<u16> {
    map.glyph_variation_index(character, selector)
        .map(|glyph| glyph.0)
}

#[test]
fn variation_sequences() {
    let map = map_of(&VARIATIONS, 0);
    for &(character, selector, variant) in &VARIANTS {
        let found = variant_of(&map, character, selector);
        assert_eq!(found, variant, "U+{character:04X} U+{selector:04X}");
    }
    for &(character, selector, glyph) in &SEQUENCES {
        let found = sequence_of(&map, character, selector);
        assert_eq!(found, glyph, "U+{character:04X} U+{selector:04X}");
    }
}

#[test]
fn no_table() {
    let map = map_of(&[], 0);
    assert_eq!(glyph_of(&map, 65), 0);
    assert!(sequence_of(&map, 65, 0xFE00).is_none());
}
