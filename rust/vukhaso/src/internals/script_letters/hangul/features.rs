// Written by tools/plain_rust from crates/script_letters. Do not edit.

//! The features of Hangul (OpenType, "Developing OpenType Fonts for Korean Hangul Script").

use crate::common::Tag;
use crate::memory::AllocError;
use crate::ot_map::{FeatureFlags, PlanBuilder};

/// The features of jamo, in the order of the numbers that they keep.
pub const JAMO_FEATURES: [&[u8; 4]; 3] = [b"ljmo", b"vjmo", b"tjmo"];

/// Asks for the features of jamo.
///
/// # Errors
///
/// `Err(AllocError)` where memory ran out.
///
/// # Proved
///
/// ```text
/// ensures pauses { HasSamePauses builder.old builder.new }
/// ensures asks { IfOk result (λ _. Asks hangul_features builder.old builder.new) }
/// ```
#[inline]
pub fn add_jamo_features(builder: &mut PlanBuilder) -> Result<(), AllocError> {
    builder.add_feature(Tag::from_bytes(b"ljmo"), FeatureFlags::NONE, 1)?;
    builder.add_feature(Tag::from_bytes(b"vjmo"), FeatureFlags::NONE, 1)?;
    builder.add_feature(Tag::from_bytes(b"tjmo"), FeatureFlags::NONE, 1)?;
    Ok(())
}
