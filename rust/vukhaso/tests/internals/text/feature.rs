//! Tests of new features. `rows/calls/features.calls` has texts that are features, and texts that are none.
use std::ops::Bound;
use vukhaso::internals::text::{Feature, Tag};

#[test]
fn texts_are_read_by_the_grammar() {
    let feature = Feature {
        tag: Tag::from_bytes(b"kern"),
        value: 2,
        start: 3,
        end: 5,
    };
    assert!("kern[3:5]=2".parse::<Feature>() == Ok(feature));
    assert!("kern[3".parse::<Feature>() == Err("invalid feature"));
}

/// Bounds, and the starts and ends that they are.
static BOUNDS: [(Bound<usize>, Bound<usize>, u32, u32); 5] = [
    (Bound::Unbounded, Bound::Unbounded, 0, u32::MAX),
    (Bound::Included(3), Bound::Included(5), 3, 5),
    (Bound::Excluded(3), Bound::Excluded(5), 4, 4),
    (
        Bound::Excluded(0xFFFF_FFFF),
        Bound::Excluded(0),
        u32::MAX,
        0,
    ),
    (
        Bound::Included(0x1_0000_0000),
        Bound::Excluded(0x1_0000_0001),
        u32::MAX,
        u32::MAX,
    ),
];

#[test]
fn a_new_feature_has_its_bounds() {
    for &(from, to, start, end) in &BOUNDS {
        let feature = Feature::new(Tag(9), 7, from, to);
        let is_global = start == 0 && end == u32::MAX;
        assert!(feature.is_global() == is_global, "{start} to {end}");
        let (tag, value) = (Tag(9), 7);
        let wanted = Feature {
            tag,
            value,
            start,
            end,
        };
        assert!(feature == wanted, "{start} to {end}");
    }
}
