// Written by tools/plain_rust from crates/ot_map. Do not edit.

//! Which bits of a glyph's mask each feature has.

use crate::memory::{AllocError, Vec};
use crate::ot_map::bits::{FIRST_SHIFT, FeatureBits, GLOBAL_MASK, GLOBAL_SHIFT, bits_needed};
use crate::ot_map::plan::PlannedFeature;
use crate::ot_map::request::FeatureRequest;

/// The features that the font has, or that have a fallback, each with its bits. One for which there are
/// no bits left is not there.
pub(crate) fn planned_features(
    requests: &[FeatureRequest],
) -> Result<Vec<PlannedFeature>, AllocError> {
    let mut features = Vec::new();
    let mut next = FIRST_SHIFT;
    for request in requests {
        match planned(request, next) {
            Some(feature) => {
                next = next_behind(&feature, next);
                features.push(feature)?;
            }
            None => {}
        }
    }
    Ok(features)
}

/// The first bit that is free behind those of a feature.
///
/// # Requires
///
/// - `StandsFrom next feature.now`
fn next_behind(feature: &PlannedFeature, next: u32) -> u32 {
    if feature.bits.shift == GLOBAL_SHIFT {
        next
    } else {
        feature.bits.shift + feature.bits.count
    }
}

/// A feature with its bits, from this one on. `None` where it is turned off, no table has it and there
/// is no fallback, or not so many bits are left.
///
/// # Requires
///
/// - `next ≤ 30`
fn planned(request: &FeatureRequest, next: u32) -> Option<PlannedFeature> {
    debug_assert!(next <= 30);
    let is_found = request.is_found();
    if !is_found && !request.flags.has_fallback {
        return None;
    }
    let bits = bits_of(request, next)?;
    Some(PlannedFeature {
        tag: request.tag,
        gsub: request.gsub,
        gpos: request.gpos,
        stage: request.stage,
        bits,
        default_value: request.default_value,
        needs_fallback: !is_found,
        flags: request.flags,
    })
}

/// The bits of a request, from this one on: the global one for a feature of every glyph with the value
/// 1. `None` where the value is 0, or not so many bits are left.
///
/// # Requires
///
/// - `next ≤ 30`
fn bits_of(request: &FeatureRequest, next: u32) -> Option<FeatureBits> {
    debug_assert!(next <= 30);
    if request.max_value == 0 {
        return None;
    }
    if request.flags.is_global && request.max_value == 1 {
        return Some(FeatureBits {
            shift: GLOBAL_SHIFT,
            count: 1,
        });
    }
    let count = bits_needed(request.max_value);
    if next + count >= GLOBAL_SHIFT {
        return None;
    }
    Some(FeatureBits { shift: next, count })
}

/// The mask of a glyph that no feature of a range reaches: the bit that every glyph has, and the
/// default value of each feature with bits of its own.
pub(crate) fn global_mask(features: &[PlannedFeature]) -> u32 {
    let mut mask = GLOBAL_MASK;
    for feature in features {
        mask |= default_mask(feature);
    }
    mask
}

/// What a feature adds to the mask of every glyph.
fn default_mask(feature: &PlannedFeature) -> u32 {
    if feature.bits.shift == GLOBAL_SHIFT {
        0
    } else {
        feature.bits.of_value(feature.default_value)
    }
}
