//! Tests of `font_colors`. The boxes in font units are those that HarfBuzz's `hb-shape --show-extents` prints for a font of six
//! glyphs with these tables, of which an em has 1,000 units.

use vukhaso::internals::common::GlyphId;
use vukhaso::internals::font_colors::strikes::{Strikes, best_strike, wanted_size};
use vukhaso::internals::font_colors::{CbdtTables, ColrTable, PixelBox, SbixTable};
use vukhaso::internals::glyph::GlyphExtents;

/// The numbers of a box: its left side, its top, its width and its height.
type Numbers = [i32; 4];

/// The numbers of a box.
fn numbers_of(extents: GlyphExtents) -> Numbers {
    [
        extents.x_bearing,
        extents.y_bearing,
        extents.width,
        extents.height,
    ]
}

/// The numbers of a bitmap's box in font units.
fn in_units(found: Option<PixelBox>) -> Option<Numbers> {
    Some(numbers_of(found?.in_units(1000)))
}

/// Sizes of strikes.
#[derive(Clone, Copy)]
struct Sizes([u16; 4]);

impl Strikes for Sizes {
    fn size(&self, strike: u32) -> u16 {
        self.0.get(strike as usize).copied().unwrap_or(0)
    }
}

/// The strike that is best of so many.
fn strike_of(count: u32, wanted: u32) -> u32 {
    best_strike(&Sizes([20, 128, 40, 128]), count, wanted)
}

#[test]
fn the_strike_is_the_smallest_that_is_large_enough() {
    for (count, wanted, strike) in [
        (4, 1, 0),
        (4, 20, 0),
        (4, 21, 2),
        (4, 40, 2),
        (4, 41, 1),
        (4, 128, 1),
        (4, 129, 1),
        (4, wanted_size(0, 0), 1),
        (0, 20, 0),
    ] {
        assert_eq!(strike_of(count, wanted), strike, "{wanted} of {count}");
    }
    assert_eq!(wanted_size(12, 0), 12);
    assert_eq!(wanted_size(12, 13), 13);
}

/// Strikes of 20 and 40 pixels: a PNG, a glyph that has the same, a JPEG, a PNG whose header is cut short, and a glyph that
/// has what it has itself.
const SBIX: &[u8] = &[
    0, 1, 0, 1, 0, 0, 0, 2, 0, 0, 0, 16, 0, 0, 0, 159, 0, 20, 0, 72, 0, 0, 0, 32, 0, 0, 0, 73, 0,
    0, 0, 83, 0, 0, 0, 124, 0, 0, 0, 133, 0, 0, 0, 143, 0, 0, 0, 143, 0, 3, 255, 252, 112, 110,
    103, 32, 137, 80, 78, 71, 13, 10, 26, 10, 0, 0, 0, 13, 73, 72, 68, 82, 0, 0, 0, 20, 0, 0, 0,
    24, 8, 6, 0, 0, 0, 0, 0, 0, 0, 0, 0, 0, 0, 100, 117, 112, 101, 0, 0, 0, 0, 0, 0, 106, 112, 103,
    32, 137, 80, 78, 71, 13, 10, 26, 10, 0, 0, 0, 13, 73, 72, 68, 82, 0, 0, 0, 20, 0, 0, 0, 24, 8,
    6, 0, 0, 0, 0, 0, 0, 0, 0, 1, 0, 2, 112, 110, 103, 32, 120, 0, 0, 0, 0, 100, 117, 112, 101, 0,
    4, 0, 40, 0, 72, 0, 0, 0, 32, 0, 0, 0, 73, 0, 0, 0, 73, 0, 0, 0, 73, 0, 0, 0, 73, 0, 0, 0, 73,
    0, 0, 0, 73, 255, 249, 0, 9, 112, 110, 103, 32, 137, 80, 78, 71, 13, 10, 26, 10, 0, 0, 0, 13,
    73, 72, 68, 82, 0, 0, 0, 37, 0, 0, 0, 41, 8, 6, 0, 0, 0, 0, 0, 0, 0,
];

/// The box of a glyph in the strike for a size.
fn sbix_box(table: &[u8], size: u32, glyph: u16) -> Option<PixelBox> {
    SbixTable::new(table, 6, size).glyph_box(GlyphId(glyph))
}

/// Tables, sizes, glyphs, and their boxes in font units.
static GRAPHICS: [(&[u8], u32, u16, Option<Numbers>); 10] = [
    (SBIX, 20, 0, Some([150, 1000, 1000, -1200])),
    (SBIX, 20, 1, Some([150, 1000, 1000, -1200])),
    (SBIX, 20, 2, None),
    (SBIX, 20, 3, Some([50, 100, 0, 0])),
    (SBIX, 20, 4, None),
    (SBIX, 20, 5, None),
    (SBIX, 20, 6, None),
    (SBIX, 21, 0, Some([-175, 1250, 925, -1025])),
    (SBIX, 21, 1, None),
    (&[], 20, 0, None),
];

#[test]
fn a_png_of_sbix_says_its_box() {
    for &(table, size, glyph, numbers) in &GRAPHICS {
        let found = in_units(sbix_box(table, size, glyph));
        assert_eq!(found, numbers, "{glyph} at {size}");
    }
    let found = sbix_box(SBIX, 21, 0);
    assert_eq!(
        found.map(|found| (found.x_ppem, numbers_of(found.extents))),
        Some((40, [-7, 50, 37, -41]))
    );
}

/// Strikes of 20 by 24 and of 60 by 50 pixels: glyphs 1 and 2 with small metrics, 3 with big ones, 4 with no image, 5 with no metrics
/// of its own, and glyph 0 in the larger strike.
static CBLC: [u8; 204] = [
    0, 3, 0, 0, 0, 0, 0, 2, 0, 0, 0, 104, 0, 0, 0, 76, 0, 0, 0, 3, 0, 0, 0, 0, 0, 0, 0, 0, 0, 0, 0,
    0, 0, 0, 0, 0, 0, 0, 0, 0, 0, 0, 0, 0, 0, 0, 0, 0, 0, 0, 0, 5, 20, 24, 32, 1, 0, 0, 0, 180, 0,
    0, 0, 24, 0, 0, 0, 1, 0, 0, 0, 0, 0, 0, 0, 0, 0, 0, 0, 0, 0, 0, 0, 0, 0, 0, 0, 0, 0, 0, 0, 0,
    0, 0, 0, 0, 0, 0, 0, 5, 60, 50, 32, 1, 0, 1, 0, 2, 0, 0, 0, 24, 0, 3, 0, 4, 0, 0, 0, 44, 0, 5,
    0, 5, 0, 0, 0, 60, 0, 1, 0, 17, 0, 0, 0, 4, 0, 0, 0, 0, 0, 0, 0, 10, 0, 0, 0, 20, 0, 3, 0, 18,
    0, 0, 0, 24, 0, 0, 0, 13, 0, 13, 0, 0, 0, 1, 0, 19, 0, 0, 0, 37, 0, 0, 0, 0, 0, 0, 0, 14, 0, 0,
    0, 0, 0, 0, 0, 8, 0, 1, 0, 17, 0, 0, 0, 51, 0, 0, 0, 0, 0, 0, 0, 10,
];

/// Their images.
const CBDT: &[u8] = &[
    0, 3, 0, 0, 20, 22, 1, 18, 30, 0, 0, 0, 1, 97, 25, 27, 253, 251, 30, 0, 0, 0, 1, 97, 30, 31, 2,
    29, 30, 1, 2, 3, 0, 0, 0, 1, 98, 97, 98, 99, 100, 101, 102, 103, 104, 105, 106, 107, 108, 109,
    110, 40, 44, 2, 36, 30, 0, 0, 0, 1, 97,
];

/// The box of a glyph in the strike for a size, with images.
fn cbdt_box(images: &[u8], size: u32, glyph: u16) -> Option<PixelBox> {
    CbdtTables::new(&CBLC, images, size).glyph_box(GlyphId(glyph))
}

/// Images, sizes, glyphs, and their boxes in font units.
static IMAGES: [(&[u8], u32, u16, Option<Numbers>); 9] = [
    (CBDT, 24, 0, None),
    (CBDT, 24, 1, Some([50, 750, 1100, -833])),
    (CBDT, 24, 2, Some([-150, -208, 1350, -1042])),
    (CBDT, 24, 3, Some([100, 1208, 1550, -1250])),
    (CBDT, 24, 4, None),
    (CBDT, 24, 5, None),
    (CBDT, 25, 0, Some([33, 720, 733, -800])),
    (CBDT, 25, 1, None),
    (&[], 25, 0, None),
];

#[test]
fn the_metrics_of_an_image_say_its_box() {
    for &(images, size, glyph, numbers) in &IMAGES {
        let found = in_units(cbdt_box(images, size, glyph));
        assert_eq!(found, numbers, "{glyph} at {size}");
    }
    let found = cbdt_box(CBDT, 25, 0);
    assert_eq!(
        found.map(|found| (found.x_ppem, found.y_ppem)),
        Some((60, 50))
    );
}

/// Boxes that glyphs are clipped to: one for the glyphs 0 and 1, one that varies for 2, and one that is nowhere for 4.
const COLR: &[u8] = &[
    0, 1, 0, 0, 0, 0, 0, 0, 0, 0, 0, 0, 0, 0, 0, 0, 0, 0, 0, 0, 0, 0, 0, 0, 0, 34, 0, 0, 0, 82, 0,
    0, 0, 106, 1, 0, 0, 0, 3, 0, 0, 0, 1, 0, 0, 26, 0, 2, 0, 2, 0, 0, 35, 0, 4, 0, 4, 0, 0, 0, 1,
    0, 10, 255, 236, 1, 44, 1, 144, 2, 0, 10, 255, 236, 1, 44, 1, 144, 0, 0, 0, 16, 0, 1, 0, 20, 0,
    0, 0, 0, 0, 0, 0, 0, 0, 0, 0, 0, 0, 0, 0, 0, 0, 1, 2, 3, 0, 1, 0, 0, 0, 12, 0, 1, 0, 0, 0, 22,
    0, 1, 0, 1, 0, 0, 64, 0, 64, 0, 0, 4, 0, 1, 0, 1, 0, 0, 0, 8, 255, 251, 0, 30, 0, 41,
];

/// The numbers of the box of a glyph at these coordinates.
fn box_at(colr: &[u8], glyph: u16, coordinates: &[i32]) -> Option<Numbers> {
    let found = ColrTable::new(colr).clip_box(GlyphId(glyph), coordinates)?;
    Some(numbers_of(found))
}

/// Tables, glyphs, coordinates, and the box of each there.
static CLIPS: [(&[u8], u16, &[i32], Option<Numbers>); 13] = [
    (COLR, 0, &[], Some([10, 400, 290, -420])),
    (COLR, 0, &[16384], Some([10, 400, 290, -420])),
    (COLR, 0, &[8192], Some([10, 400, 290, -420])),
    (COLR, 0, &[-10923], Some([10, 400, 290, -420])),
    (COLR, 1, &[], Some([10, 400, 290, -420])),
    (COLR, 2, &[], Some([10, 400, 290, -420])),
    (COLR, 2, &[16384], Some([18, 441, 312, -466])),
    (COLR, 2, &[8192], Some([14, 421, 301, -443])),
    (COLR, 2, &[-10923], Some([10, 400, 290, -420])),
    (COLR, 3, &[], None),
    (COLR, 4, &[], Some([0, 0, 0, 0])),
    (COLR, 5, &[], None),
    (&[], 0, &[], None),
];

#[test]
fn a_glyph_is_clipped_to_its_box() {
    for (row, &(colr, glyph, coordinates, numbers)) in CLIPS.iter().enumerate() {
        assert_eq!(box_at(colr, glyph, coordinates), numbers, "{row}");
    }
}
