use vukhaso::internals::font_tables::bytes::part;
use vukhaso::internals::font_tables::extents::{
    FontExtents, horizontal_extents, long_metric_count,
};
use vukhaso::internals::font_tables::head::{glyph_count, index_to_loc_format, units_per_em};

/// A table `head` with 2048 units to an em, and offsets of 32 bits in `loca`.
static HEAD: [u8; 54] = [
    0, 1, 0, 0, 0, 0, 0, 0, 0, 0, 0, 0, 0x5F, 0x0F, 0x3C, 0xF5, 0, 0, 8, 0, 0, 0, 0, 0, 0, 0, 0, 0,
    0, 0, 0, 0, 0, 0, 0, 0, 0, 0, 0, 0, 0, 0, 0, 0, 0, 0, 0, 0, 0, 0, 0, 1, 0, 0,
];

/// Bytes of units of an em, and what is taken of them.
static UNITS: [([u8; 2], u16); 5] = [
    ([8, 0], 2048),
    ([0, 16], 16),
    ([0, 15], 1000),
    ([64, 0], 16384),
    ([64, 1], 1000),
];

#[test]
fn an_em_has_units() {
    for &([high, low], units) in &UNITS {
        let mut head = HEAD;
        head[18] = high;
        head[19] = low;
        assert_eq!(units_per_em(&head), units, "{high}, {low}");
    }
}

#[test]
fn a_broken_head_is_not_read() {
    let mut broken = HEAD;
    broken[12] = 0;
    assert_eq!(
        [units_per_em(&broken), units_per_em(part(&HEAD, 0, 53))],
        [1000, 1000]
    );
    assert_eq!(
        [index_to_loc_format(&broken), index_to_loc_format(&HEAD)],
        [0, 1]
    );
}

/// Tables `maxp` of version 0.5, of version 1.0 cut short, and an empty one, and how many glyphs they count.
static PROFILES: [(&[u8], u16); 3] = [
    (&[0, 0, 0x50, 0, 1, 2], 258),
    (&[0, 1, 0, 0, 1, 2], 0),
    (&[], 0),
];

#[test]
fn maxp_counts_the_glyphs() {
    for &(maxp, count) in &PROFILES {
        assert_eq!(glyph_count(maxp), count, "{maxp:?}");
    }
}

/// A table `hhea` with the ascender 900, the descender -200 and three advances.
static HHEA: [u8; 36] = [
    0, 1, 0, 0, 3, 132, 255, 56, 0, 0, 0, 0, 0, 0, 0, 0, 0, 0, 0, 0, 0, 0, 0, 0, 0, 0, 0, 0, 0, 0,
    0, 0, 0, 0, 0, 3,
];

/// A table `OS/2` with a weight class, the typographic ascender 800 and descender -300, and `USE_TYPO_METRICS`.
static OS2: [u8; 78] = [
    0, 0, 0, 0, 0, 100, 0, 0, 0, 0, 0, 0, 0, 0, 0, 0, 0, 0, 0, 0, 0, 0, 0, 0, 0, 0, 0, 0, 0, 0, 0,
    0, 0, 0, 0, 0, 0, 0, 0, 0, 0, 0, 0, 0, 0, 0, 0, 0, 0, 0, 0, 0, 0, 0, 0, 0, 0, 0, 0, 0, 0, 0, 0,
    0x80, 0, 0, 0, 0, 3, 32, 254, 212, 0, 0, 0, 0, 0, 0,
];

#[test]
fn lines_have_an_ascender_and_a_descender() {
    let of_os2 = FontExtents {
        ascender: 800,
        descender: -300,
    };
    let of_hhea = FontExtents {
        ascender: 900,
        descender: -200,
    };
    assert_eq!(horizontal_extents(&OS2, &HHEA), Some(of_os2));
    assert_eq!(horizontal_extents(part(&OS2, 0, 77), &HHEA), Some(of_hhea));
    assert!(horizontal_extents(&[], &[]).is_none());
    assert_eq!(
        [
            long_metric_count(&HHEA),
            long_metric_count(part(&HHEA, 0, 35))
        ],
        [3, 0]
    );
}
