//! Tests of how values are ordered and cloned.

use std::cmp::Ordering;
use std::ops::Bound;
use vukhaso::internals::text::{Feature, Tag, script};

#[test]
fn values_are_compared_by_number() {
    assert!(Tag(1) < Tag(2));
    assert_eq!(script::LATIN.cmp(&script::ARABIC), Ordering::Greater);
    let feature = Feature::new(Tag(2), 1, Bound::Unbounded, Bound::Unbounded);
    assert_eq!(feature.clone(), feature);
}
