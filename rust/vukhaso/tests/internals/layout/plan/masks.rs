//! The bits of features, and what is asked of one tag.

use vukhaso::internals::common::Tag;
use vukhaso::internals::ot_map::bits::{FeatureBits, bits_needed};
use vukhaso::internals::ot_map::{FeatureFlags, FeatureRequest};

/// The mask of bits, and two values in them.
fn masks_of(bits: FeatureBits, values: [u32; 2]) -> [u32; 3] {
    [
        bits.mask(),
        bits.of_value(values[0]),
        bits.of_value(values[1]),
    ]
}

#[test]
fn values_stand_in_their_bits() {
    let bits = FeatureBits { shift: 4, count: 3 };
    assert_eq!(masks_of(bits, [5, 9]), [0x70, 0x50, 0x10]);
    let global = [0x8000_0000, 0x8000_0000, 0];
    assert_eq!(masks_of(FeatureBits::global(), [1, 0]), global);
}

/// How many bits a value needs.
fn needed(value: u32) -> u32 {
    bits_needed(value)
}

/// Eight bits are the most.
#[test]
fn values_need_bits() {
    for (value, bits) in [(0, 0), (1, 1), (5, 3), (255, 8), (100_000, 8)] {
        assert_eq!(needed(value), bits, "{value}");
    }
}

/// A request of `kern` in a stage.
fn kerning(flags: FeatureFlags, value: u32, stage: usize) -> FeatureRequest {
    FeatureRequest::new(Tag::from_bytes(b"kern"), flags, value, stage)
}

/// What two requests ask for together.
fn merged(before: FeatureRequest, later: &FeatureRequest) -> FeatureRequest {
    let mut request = before;
    request.merge(later);
    request
}

/// Whether all glyphs have a feature, its greatest value and its default one, and its stage.
fn asked(request: &FeatureRequest) -> (bool, u32, u32, usize) {
    (
        request.flags.is_global,
        request.max_value,
        request.default_value,
        request.stage,
    )
}

/// A later request of a part of the text leaves the default, and one of all glyphs does not.
#[test]
fn requests_of_a_tag_are_merged() {
    let first = kerning(FeatureFlags::GLOBAL, 1, 2);
    let of_part = merged(first, &kerning(FeatureFlags::NONE, 3, 1));
    assert_eq!(asked(&of_part), (false, 3, 1, 1));
    let of_all = merged(of_part, &kerning(FeatureFlags::GLOBAL, 0, 4));
    assert_eq!(asked(&of_all), (true, 0, 0, 1));
}

/// Whether a request that was not looked for is found.
fn is_found() -> bool {
    kerning(FeatureFlags::GLOBAL, 1, 2).is_found()
}

#[test]
fn features_are_looked_for() {
    assert!(!is_found());
}
