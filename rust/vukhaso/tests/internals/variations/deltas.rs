//! Tests of regions, deltas and delta set index maps.

use vukhaso::internals::font_variations::index_map::IndexMap;
use vukhaso::internals::font_variations::regions::{axis_scalar, is_at_peak, is_disordered};
use vukhaso::internals::font_variations::rounding::{float, rounded};
use vukhaso::internals::font_variations::{Deltas, VariationStore};

/// A region that reaches from the default to the greatest coordinate, and two rows of bytes, 100 and -50.
static STORE: [u8; 32] = [
    0, 1, 0, 0, 0, 12, 0, 1, 0, 0, 0, 22, //
    0, 1, 0, 1, 0, 0, 0x40, 0, 0x40, 0, //
    0, 2, 0, 0, 0, 1, 0, 0, 100, 206,
];

/// The same region, and a row of a word, 300.
static WORDS: [u8; 32] = [
    0, 1, 0, 0, 0, 12, 0, 1, 0, 0, 0, 22, //
    0, 1, 0, 1, 0, 0, 0x40, 0, 0x40, 0, //
    0, 1, 0, 1, 0, 1, 0, 0, 1, 44,
];

/// The same region, and a row of a number of 32 bits, 65536.
static LONG_WORDS: [u8; 34] = [
    0, 1, 0, 0, 0, 12, 0, 1, 0, 0, 0, 22, //
    0, 1, 0, 1, 0, 0, 0x40, 0, 0x40, 0, //
    0, 1, 0x80, 1, 0, 1, 0, 0, 0, 1, 0, 0,
];

/// A table of version 1.3 with the first store, and one of version 1.2 with the same bytes.
static GDEF: [u8; 50] = [
    0, 1, 0, 3, 0, 0, 0, 0, 0, 0, 0, 0, 0, 0, 0, 0, 0, 18, //
    0, 1, 0, 0, 0, 12, 0, 1, 0, 0, 0, 22, //
    0, 1, 0, 1, 0, 0, 0x40, 0, 0x40, 0, //
    0, 2, 0, 0, 0, 1, 0, 0, 100, 206,
];

static OLDER_GDEF: [u8; 50] = [
    0, 1, 0, 2, 0, 0, 0, 0, 0, 0, 0, 0, 0, 0, 0, 0, 0, 18, //
    0, 1, 0, 0, 0, 12, 0, 1, 0, 0, 0, 22, //
    0, 1, 0, 1, 0, 0, 0x40, 0, 0x40, 0, //
    0, 2, 0, 0, 0, 1, 0, 0, 100, 206,
];

/// The start, the peak and the end of a region on an axis, a coordinate, and how much holds there.
static SCALARS: [((i16, i16, i16, i32), f32); 9] = [
    ((0, 8192, 16384, 8192), 1.0),
    ((0, 8192, 16384, 4096), 0.5),
    ((0, 8192, 16384, 12288), 0.5),
    ((0, 8192, 16384, 16384), 0.0),
    ((0, 8192, 16384, -4096), 0.0),
    ((-16384, -16384, 0, -4096), 0.25),
    ((0, 0, 0, 4096), 1.0),
    ((-8192, 8192, 16384, 4096), 1.0),
    ((8192, 4096, 16384, 6144), 1.0),
];

#[test]
fn regions_hold_evenly_between_their_ends() {
    for &((start, peak, end, at), scalar) in &SCALARS {
        assert_eq!(
            axis_scalar(start, peak, end, at),
            scalar,
            "{start}, {peak}, {end} at {at}"
        );
    }
    assert!(is_at_peak(0, 5));
    assert!(is_at_peak(5, 5));
    assert!(!is_at_peak(4, 5));
    assert!(is_disordered(-1, 1, 1));
    assert!(is_disordered(2, 1, 3));
    assert!(!is_disordered(0, 1, 2));
}

#[test]
fn deltas_are_summed_over_regions() {
    let store = VariationStore::new(&STORE);
    assert_eq!(store.delta(0, &[16384]), 100.0);
    assert_eq!(store.delta(0, &[8192]), 50.0);
    assert_eq!(store.delta(1, &[8192]), -25.0);
    assert_eq!(store.delta(2, &[8192]), 0.0);
    assert_eq!(store.delta(0x10000, &[8192]), 0.0);
    assert_eq!(store.delta(0, &[]), 0.0);
    assert_eq!(store.region_count(0), 1);
    assert_eq!(store.region_count(1), 0);
    assert_eq!(store.region_scalar(0, 0, &[4096]), 0.25);
    assert_eq!(store.region_scalar(0, 1, &[4096]), 0.0);
    assert_eq!(VariationStore::new(&WORDS).delta(0, &[16384]), 300.0);
    assert_eq!(VariationStore::new(&LONG_WORDS).delta(0, &[16384]), 65536.0);
}

#[test]
fn version_1_3_of_gdef_has_a_store() {
    let deltas = Deltas {
        store: VariationStore::of_gdef(&GDEF),
        coordinates: &[16384],
    };
    assert!(deltas.is_varied());
    assert_eq!(deltas.delta(0), 100.0);
    assert!(!Deltas::NONE.is_varied());
    assert_eq!(Deltas::NONE.delta(0), 0.0);
    assert_eq!(VariationStore::of_gdef(&OLDER_GDEF).delta(0, &[16384]), 0.0);
}

#[test]
fn a_map_names_delta_sets() {
    let map = IndexMap::new(&[0, 0, 0, 2, 2, 1]);
    assert_eq!(map.index_of(0), 0x10000);
    assert_eq!(map.index_of(1), 1);
    assert_eq!(map.index_of(9), 1);
    let wide = IndexMap::new(&[1, 0x17, 0, 0, 0, 1, 3, 7]);
    assert_eq!(wide.index_of(0), 0x30007);
    assert_eq!(IndexMap::new(&[]).index_of(5), 5);
}

#[test]
fn a_half_is_rounded_up() {
    assert_eq!(rounded(2.5), 3);
    assert_eq!(rounded(-2.5), -2);
    assert_eq!(rounded(-0.75), -1);
    assert_eq!(float(-3), -3.0);
}
