// Written by tools/plain_rust from crates/script_universal. Do not edit.

//! The features that Khmer asks for, in their stages (OpenType, "Developing OpenType Fonts for Khmer Script").

use crate::common::Tag;
use crate::memory::AllocError;
use crate::ot_map::{FeatureFlags, LayoutPlan, Pause, PlanBuilder};
use crate::script_syllables::requests::{
    MANUAL_JOINERS, PER_SYLLABLE, PRESENTATION_FEATURES, add_all, one_mask,
};
use crate::script_universal::khmer::plan::KhmerPlan;

/// The basic features, all in one stage, and whether every glyph has it.
const BASIC_FEATURES: [(&[u8; 4], bool); 5] = [
    (b"pref", false),
    (b"blwf", false),
    (b"abvf", false),
    (b"pstf", false),
    (b"cfar", false),
];

/// Asks for the features, with the pauses at which syllables are found and reordered.
///
/// # Errors
///
/// `Err(AllocError)` where memory ran out.
///
/// # Proved
///
/// ```text
/// ensures pauses { IfOk result (λ _. builder.new.pauses.items ≡ builder.old.pauses.items ++ khmer_pauses) }
/// ensures asks { IfOk result (λ _. Asks khmer_features builder.old builder.new) }
/// ```
#[inline]
pub fn collect_features(builder: &mut PlanBuilder) -> Result<(), AllocError> {
    builder.add_gsub_pause(Pause::SetUpSyllables)?;
    builder.add_gsub_pause(Pause::InitialReordering)?;
    builder.enable_feature(Tag::from_bytes(b"locl"), PER_SYLLABLE)?;
    builder.enable_feature(Tag::from_bytes(b"ccmp"), PER_SYLLABLE)?;
    let flags = FeatureFlags {
        per_syllable: true,
        ..MANUAL_JOINERS
    };
    add_all(builder, &BASIC_FEATURES, flags)?;
    builder.add_gsub_pause(Pause::Nothing)?;
    add_all(builder, &PRESENTATION_FEATURES, MANUAL_JOINERS)?;
    Ok(())
}

/// Asks for contextual ligatures, which Khmer requires, and turns standard ligatures off.
///
/// # Errors
///
/// `Err(AllocError)` where memory ran out.
///
/// # Proved
///
/// ```text
/// ensures pauses { HasSamePauses builder.old builder.new }
/// ensures asks { IfOk result (λ _. Asks khmer_overrides builder.old builder.new) }
/// ```
#[inline]
pub fn override_features(builder: &mut PlanBuilder) -> Result<(), AllocError> {
    builder.enable_feature(Tag::from_bytes(b"clig"), FeatureFlags::NONE)?;
    builder.disable_feature(Tag::from_bytes(b"liga"))?;
    Ok(())
}

/// The plan for the features of a font.
///
/// # Proved
///
/// ```text
/// ensures { IsKhmerPlan layout.now result }
/// ```
#[inline]
pub fn plan(layout: &LayoutPlan) -> KhmerPlan {
    KhmerPlan {
        pref: one_mask(layout, b"pref"),
        blwf: one_mask(layout, b"blwf"),
        abvf: one_mask(layout, b"abvf"),
        pstf: one_mask(layout, b"pstf"),
        cfar: one_mask(layout, b"cfar"),
    }
}
