// Written by tools/plain_rust from crates/script_universal. Do not edit.

//! The features that Myanmar asks for, in their stages (OpenType, "Developing OpenType Fonts for Myanmar Script").

use crate::common::Tag;
use crate::memory::AllocError;
use crate::ot_map::{FeatureFlags, Pause, PlanBuilder};
use crate::script_syllables::requests::{
    MANUAL_JOINER, PER_SYLLABLE, PRESENTATION_FEATURES, add_all, add_in_stages,
};

/// The basic features, each in a stage of its own, and whether every glyph has it.
const BASIC_FEATURES: [(&[u8; 4], bool); 4] = [
    (b"rphf", true),
    (b"pref", true),
    (b"blwf", true),
    (b"pstf", true),
];

/// Asks for the features, with the pauses at which syllables are found and reordered.
///
/// # Errors
///
/// `Err(AllocError)` where memory ran out.
///
/// # Proved
///
/// ```text
/// ensures pauses { IfOk result (λ _. builder.new.pauses.items ≡ builder.old.pauses.items ++ myanmar_pauses) }
/// ensures asks { IfOk result (λ _. Asks myanmar_features builder.old builder.new) }
/// ```
#[inline]
pub fn collect_features(builder: &mut PlanBuilder) -> Result<(), AllocError> {
    builder.add_gsub_pause(Pause::SetUpSyllables)?;
    builder.enable_feature(Tag::from_bytes(b"locl"), PER_SYLLABLE)?;
    builder.enable_feature(Tag::from_bytes(b"ccmp"), PER_SYLLABLE)?;
    builder.add_gsub_pause(Pause::InitialReordering)?;
    let flags = FeatureFlags {
        per_syllable: true,
        ..MANUAL_JOINER
    };
    add_in_stages(builder, &BASIC_FEATURES, flags)?;
    builder.add_gsub_pause(Pause::Nothing)?;
    add_all(builder, &PRESENTATION_FEATURES, MANUAL_JOINER)?;
    Ok(())
}
