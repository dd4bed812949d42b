//! Tests of `HVAR`, `VVAR`, `MVAR` and feature variations.

use vukhaso::internals::common::{GlyphId, Tag};
use vukhaso::internals::font_variations::feature_variations::substitute_of;
use vukhaso::internals::font_variations::{MetricsVariations, ValueVariations, substitutions_of};

/// Deltas of advances by the numbers of glyphs, 100 and -50 at the greatest coordinate, with no map for bearings.
static HVAR: [u8; 52] = [
    0, 1, 0, 0, 0, 0, 0, 20, 0, 0, 0, 0, 0, 0, 0, 0, 0, 0, 0, 0, //
    0, 1, 0, 0, 0, 12, 0, 1, 0, 0, 0, 22, //
    0, 1, 0, 1, 0, 0, 0x40, 0, 0x40, 0, //
    0, 2, 0, 0, 0, 1, 0, 0, 100, 206,
];

/// The same deltas, with maps for bearings at the top and for origins, both to the second row.
static VVAR: [u8; 61] = [
    0, 1, 0, 0, 0, 0, 0, 29, 0, 0, 0, 0, 0, 0, 0, 24, 0, 0, 0, 0, 0, 0, 0, 24, //
    0, 0, 0, 1, 1, //
    0, 1, 0, 0, 0, 12, 0, 1, 0, 0, 0, 22, //
    0, 1, 0, 1, 0, 0, 0x40, 0, 0x40, 0, //
    0, 2, 0, 0, 0, 1, 0, 0, 100, 206,
];

/// A delta of the ascender.
static MVAR: [u8; 52] = [
    0, 1, 0, 0, 0, 0, 0, 8, 0, 1, 0, 20, //
    b'h', b'a', b's', b'c', 0, 0, 0, 0, //
    0, 1, 0, 0, 0, 12, 0, 1, 0, 0, 0, 22, //
    0, 1, 0, 1, 0, 0, 0x40, 0, 0x40, 0, //
    0, 2, 0, 0, 0, 1, 0, 0, 100, 206,
];

/// A feature table that stands in the place of feature 3 from a half up to the greatest coordinate.
static GSUB: [u8; 62] = [
    0, 1, 0, 1, 0, 0, 0, 0, 0, 0, 0, 0, 0, 14, //
    0, 1, 0, 0, 0, 0, 0, 1, 0, 0, 0, 16, 0, 0, 0, 30, //
    0, 1, 0, 0, 0, 6, //
    0, 1, 0, 0, 0x20, 0, 0x40, 0, //
    0, 1, 0, 0, 0, 1, 0, 3, 0, 0, 0, 12, //
    0, 0, 0, 1, 0, 7,
];

#[test]
fn advances_and_bearings_change() {
    let across = MetricsVariations::new(&HVAR).expect("the table is whole");
    assert_eq!(across.advance_delta(GlyphId(0), &[8192]), 50);
    assert_eq!(across.advance_delta(GlyphId(1), &[16384]), -50);
    assert_eq!(across.advance_delta(GlyphId(2), &[16384]), 0);
    assert!(across.bearing_delta(GlyphId(0), &[16384]).is_none());
    let upwards = MetricsVariations::new(&VVAR).expect("the table is whole");
    assert_eq!(upwards.advance_delta(GlyphId(0), &[16384]), 100);
    assert_eq!(upwards.bearing_delta(GlyphId(0), &[16384]), Some(-50));
    assert_eq!(upwards.origin_delta(GlyphId(0), &[8192]), -25.0);
    let is_cut = MetricsVariations::new(&HVAR[..19]).is_none();
    assert!(is_cut);
}

#[test]
fn numbers_of_the_font_change() {
    let values = ValueVariations::new(&MVAR);
    assert_eq!(values.delta(Tag(0x68617363), &[8192]), 50.0);
    assert_eq!(values.delta(Tag(0x68647363), &[8192]), 0.0);
    assert_eq!(
        ValueVariations::new(&[]).delta(Tag(0x68617363), &[8192]),
        0.0
    );
}

#[test]
fn features_have_other_tables() {
    let found = substitutions_of(&GSUB, &[8192]);
    assert_eq!(substitute_of(found, 3), Some([0, 0, 0, 1, 0, 7].as_slice()));
    assert!(substitute_of(found, 2).is_none());
    assert_eq!(substitutions_of(&GSUB, &[16384]).len(), 18);
    assert!(substitutions_of(&GSUB, &[4096]).is_empty());
    assert!(substitutions_of(&GSUB, &[]).is_empty());
}
