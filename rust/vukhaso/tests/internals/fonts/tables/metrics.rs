use vukhaso::internals::common::GlyphId;
use vukhaso::internals::font_tables::bytes::part;
use vukhaso::internals::font_tables::metrics::Metrics;
use vukhaso::internals::font_tables::vertical_origins::VerticalOrigins;

/// Two advances with a side bearing each, and two more side bearings.
static HMTX: [u8; 12] = [1, 244, 0, 10, 2, 88, 255, 236, 0, 30, 0, 40];

/// How many bytes of the table there are, a glyph, its advance and its side bearing.
static ADVANCES: [(usize, u16, u16, Option<i16>); 8] = [
    (12, 0, 500, Some(10)),
    (12, 1, 600, Some(-20)),
    (12, 3, 600, Some(40)),
    (12, 4, 0, None),
    (10, 2, 600, Some(30)),
    (10, 3, 0, None),
    (5, 0, 500, Some(10)),
    (0, 3, 512, None),
];

/// The advance of a glyph and its side bearing in the first bytes of the table, and whether it has an
/// advance there.
fn measures_of(size: usize, glyph: GlyphId) -> (u16, Option<i16>, bool) {
    let metrics = Metrics::new(part(&HMTX, 0, size), 2, 4, 512);
    (
        metrics.advance(glyph),
        metrics.side_bearing(glyph),
        metrics.has_advance(glyph),
    )
}

#[test]
fn the_last_advance_goes_on() {
    for &(size, number, advance, bearing) in &ADVANCES {
        let found = measures_of(size, GlyphId(number));
        assert_eq!(
            found,
            (advance, bearing, bearing.is_some()),
            "{number} in {size}"
        );
    }
}

/// A table `VORG`: 880 for each glyph but 5, which has 700.
static VORG: [u8; 12] = [0, 1, 0, 0, 3, 112, 0, 1, 0, 5, 2, 188];

/// How many bytes of the table there are, a glyph, and where it stands.
static ORIGINS: [(usize, u16, Option<i16>); 4] = [
    (12, 5, Some(700)),
    (12, 4, Some(880)),
    (12, 6, Some(880)),
    (0, 5, None),
];

#[test]
fn glyphs_have_vertical_origins() {
    for &(size, glyph, y) in &ORIGINS {
        let origins = VerticalOrigins::new(part(&VORG, 0, size));
        assert_eq!(origins.y_origin(GlyphId(glyph)), y, "{glyph} in {size}");
    }
}
