//! Tests of `font_gvar`: a triangle whose corner and advance move to the right, and a paint that fills it.

use vukhaso::internals::common::GlyphId;
use vukhaso::internals::font_colors::{ColrTable, DrawnOutlines};
use vukhaso::internals::font_gvar::{
    GlyphSources, GlyphVariations, Point, varied_outline, varied_phantoms,
};
use vukhaso::internals::font_tables::metrics::Metrics;
use vukhaso::internals::font_tables::scale::Scale;
use vukhaso::internals::outline_tables::GlyfTables;

/// A triangle from the origin to 100 across and 100 up.
static GLYF: [u8; 20] = [
    0, 1, 0, 0, 0, 0, 0, 100, 0, 100, 0, 2, 0, 0, 0x31, 0x33, 0x27, 100, 100, 100,
];

static LOCA: [u8; 4] = [0, 0, 0, 10];

/// An advance of 120, and no bearing.
static HMTX: [u8; 4] = [0, 120, 0, 0];

/// A tuple with a shared peak at the greatest coordinate: the second point moves by 10, and the advance by 20.
static GVAR: [u8; 44] = [
    0, 1, 0, 0, 0, 1, 0, 1, 0, 0, 0, 24, 0, 1, 0, 0, 0, 0, 0, 26, //
    0, 0, 0, 9, //
    0x40, 0, //
    0, 1, 0, 8, 0, 9, 0, 0, 6, 0, 10, 0, 0, 20, 0, 0, 0x86, 0,
];

/// The tables of the font, with these variations.
fn sources(gvar: &[u8]) -> GlyphSources<'_> {
    GlyphSources {
        outlines: GlyfTables {
            glyf: &GLYF,
            loca: &LOCA,
            has_long_offsets: false,
            glyph_count: 1,
        },
        variations: GlyphVariations::new(gvar, 1),
        horizontal: Metrics::new(&HMTX, 1, 1, 500),
        vertical: Metrics::new(&[], 0, 1, 1000),
    }
}

/// Coordinates, and where the advance ends.
static ADVANCES: [(i32, f32); 4] = [(0, 120.0), (8192, 130.0), (16384, 140.0), (-8192, 120.0)];

#[test]
fn the_advance_moves() {
    for &(at, right) in &ADVANCES {
        let phantoms =
            varied_phantoms(&sources(&GVAR), GlyphId(0), &[at]).expect("the font has the glyph");
        assert_eq!(phantoms.left, Point { x: 0.0, y: 0.0 }, "at {at}");
        assert_eq!(phantoms.right, Point { x: right, y: 0.0 }, "at {at}");
        assert_eq!(phantoms.top, Point { x: 0.0, y: 100.0 }, "at {at}");
        assert_eq!(phantoms.bottom, Point { x: 0.0, y: -900.0 }, "at {at}");
    }
    assert!(varied_phantoms(&sources(&GVAR), GlyphId(1), &[0]).is_none());
    let still = varied_phantoms(&sources(&[]), GlyphId(0), &[16384]);
    assert_eq!(still.map(|phantoms| phantoms.right.x), Some(120.0));
}

#[test]
fn the_box_grows() {
    let found = varied_outline(&sources(&GVAR), GlyphId(0), &[16384]);
    let outline = found.unwrap().expect("the font has the glyph");
    assert_eq!(outline.extents.x_bearing, 0);
    assert_eq!(outline.extents.y_bearing, 100);
    assert_eq!(outline.extents.width, 110);
    assert_eq!(outline.extents.height, -100);
    assert_eq!(outline.bounds.min, Point { x: 0.0, y: 0.0 });
    assert_eq!(outline.bounds.max, Point { x: 110.0, y: 100.0 });
    assert_eq!(outline.phantoms.right, Point { x: 140.0, y: 0.0 });
}

#[test]
fn points_move() {
    let point = Point { x: 3.0, y: 5.0 };
    let by = Point { x: 1.0, y: 2.0 };
    assert_eq!(point.moved(by), Point { x: 4.0, y: 7.0 });
    assert_eq!(point.times(2.0), Point { x: 6.0, y: 10.0 });
    assert_eq!(point.from(by), Point { x: 2.0, y: 3.0 });
}

/// A paint of glyph 1: the triangle, 10 to the right and 5 down.
static COLR: [u8; 63] = [
    0, 1, 0, 0, 0, 0, 0, 0, 0, 0, 0, 0, 0, 0, 0, 0, 0, 34, 0, 0, 0, 0, 0, 0, 0, 0, 0, 0, 0, 0, 0,
    0, 0, 0, //
    0, 0, 0, 1, 0, 1, 0, 0, 0, 10, //
    14, 0, 0, 8, 0, 10, 255, 251, //
    10, 0, 0, 6, 0, 0, 2, 0, 0, 64, 0,
];

/// Coordinates, how long an em is, and the box of the paint there.
static PAINTED: [(i32, i32, [i32; 4]); 4] = [
    (0, 1000, [10, 95, 100, -100]),
    (8192, 1000, [10, 95, 105, -100]),
    (16384, 1000, [10, 95, 110, -100]),
    (16384, 2000, [20, 190, 220, -200]),
];

#[test]
fn a_paint_reaches_as_far_as_what_it_fills() {
    let colr = ColrTable::new(&COLR);
    for &(at, em, [left, top, width, height]) in &PAINTED {
        let outlines = DrawnOutlines {
            sources: sources(&GVAR),
            cff_2: None,
            cff: None,
            scale: Scale::new(1000, em, em),
        };
        let found = colr.painted_extents(GlyphId(1), &outlines, &[at]);
        let extents = found.unwrap().expect("the glyph has a paint");
        assert_eq!(extents.x_bearing, left, "at {at}");
        assert_eq!(extents.y_bearing, top, "at {at}");
        assert_eq!(extents.width, width, "at {at}");
        assert_eq!(extents.height, height, "at {at}");
        let none = colr.painted_extents(GlyphId(0), &outlines, &[at]);
        assert!(matches!(none, Ok(None)), "at {at}");
    }
}
