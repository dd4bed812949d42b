//! Tests of axes, named instances and segment maps.

use vukhaso::internals::common::Tag;
use vukhaso::internals::font_variations::regions::coordinate;
use vukhaso::internals::font_variations::user_variations::{last_with_tag, value_on};
use vukhaso::internals::font_variations::{AxisMaps, Variation, VariationAxes};

/// A weight from 100 over 400 to 900, and an instance at 700.
static FVAR: [u8; 44] = [
    0, 1, 0, 0, 0, 16, 0, 2, 0, 1, 0, 20, 0, 1, 0, 8, //
    b'w', b'g', b'h', b't', 0, 100, 0, 0, 1, 144, 0, 0, 3, 132, 0, 0, 0, 0, 1, 0, //
    1, 1, 0, 0, 2, 188, 0, 0,
];

/// A map that moves a half to three quarters.
static AVAR: [u8; 26] = [
    0, 1, 0, 0, 0, 0, 0, 1, //
    0, 4, 0xC0, 0, 0xC0, 0, 0, 0, 0, 0, 0x20, 0, 0x30, 0, 0x40, 0, 0x40, 0,
];

/// A map without pairs, and a delta of -8192 at the greatest coordinate.
static AVAR_2: [u8; 50] = [
    0, 2, 0, 0, 0, 0, 0, 1, 0, 0, 0, 0, 0, 0, 0, 0, 0, 18, //
    0, 1, 0, 0, 0, 12, 0, 1, 0, 0, 0, 22, //
    0, 1, 0, 1, 0, 0, 0x40, 0, 0x40, 0, //
    0, 1, 0, 1, 0, 1, 0, 0, 0xE0, 0,
];

const WEIGHT: Tag = Tag(0x77676874);

const WIDTH: Tag = Tag(0x77647468);

/// Values, and their normalized coordinates.
static NORMALIZED: [(f32, i32); 7] = [
    (400.0, 0),
    (250.0, -8192),
    (100.0, -16384),
    (50.0, -16384),
    (650.0, 8192),
    (900.0, 16384),
    (1000.0, 16384),
];

#[test]
fn values_are_normalized() {
    let axes = VariationAxes::new(&FVAR);
    assert_eq!(axes.axis_count, 1);
    assert_eq!(axes.instance_count, 1);
    assert!(axes.axis(1).is_none());
    let axis = axes.axis(0).expect("the table has an axis");
    assert_eq!(axis.tag, WEIGHT);
    assert_eq!(axis.minimum, 100.0);
    assert_eq!(axis.default, 400.0);
    assert_eq!(axis.maximum, 900.0);
    for &(value, normalized) in &NORMALIZED {
        assert_eq!(axis.normalized(value), normalized, "to {normalized}");
    }
}

#[test]
fn the_last_value_is_chosen_and_else_that_of_the_instance() {
    let axes = VariationAxes::new(&FVAR);
    assert_eq!(axes.instance_value(0, 0), Some(700.0));
    assert!(axes.instance_value(1, 0).is_none());
    assert!(axes.instance_value(0, 1).is_none());
    let chosen = [
        Variation {
            tag: WEIGHT,
            value: 200.0,
        },
        Variation {
            tag: WIDTH,
            value: 75.0,
        },
        Variation {
            tag: WEIGHT,
            value: 300.0,
        },
    ];
    assert_eq!(last_with_tag(&chosen, WEIGHT), Some(300.0));
    assert_eq!(last_with_tag(&chosen, WIDTH), Some(75.0));
    assert!(last_with_tag(&chosen, Tag(0)).is_none());
    let axis = axes.axis(0).expect("the table has an axis");
    assert_eq!(value_on(&axes, 0, &axis, Some(0), &chosen), 300.0);
    assert_eq!(value_on(&axes, 0, &axis, Some(0), &[]), 700.0);
    assert_eq!(value_on(&axes, 0, &axis, None, &[]), 400.0);
}

#[test]
fn a_cut_table_has_no_axes() {
    let axes = VariationAxes::new(&FVAR[..43]);
    assert_eq!(axes.axis_count, 0);
    assert!(axes.axis(0).is_none());
}

/// Coordinates, and where the map moves them.
static MOVED: [(i32, i32); 5] = [
    (0, 0),
    (4096, 6144),
    (8192, 12288),
    (12288, 14336),
    (-8192, -8192),
];

#[test]
fn segment_maps_move_coordinates_evenly() {
    let maps = AxisMaps::new(&AVAR);
    assert!(!maps.has_second_map());
    for &(from, to) in &MOVED {
        let mut coordinates = [from, from];
        maps.map_segments(&mut coordinates);
        assert_eq!(coordinates[0], to, "from {from}");
        assert_eq!(coordinates[1], from, "from {from}");
        assert_eq!(maps.mapped_by_all(0, &[from]), from, "from {from}");
    }
}

#[test]
fn version_2_adds_deltas() {
    let maps = AxisMaps::new(&AVAR_2);
    assert!(maps.has_second_map());
    assert_eq!(maps.mapped_by_all(0, &[16384]), 8192);
    assert_eq!(maps.mapped_by_all(0, &[8192]), 4096);
    assert_eq!(maps.mapped_by_all(0, &[0]), 0);
    assert_eq!(coordinate(&[7], 0), 7);
    assert_eq!(coordinate(&[7], 1), 0);
}
