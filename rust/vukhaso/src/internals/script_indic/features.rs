// Written by tools/plain_rust from crates/script_indic. Do not edit.

//! The features that Indic scripts ask for, in their stages (OpenType, "Developing OpenType Fonts for Devanagari Script").

use crate::common::{Script, Tag};
use crate::memory::AllocError;
use crate::ot_map::{FeatureFlags, LayoutPlan, Pause, PlanBuilder};
use crate::script_indic::plan::{ConsonantForms, IndicMasks, IndicPlan};
use crate::script_syllables::requests::{
    MANUAL_JOINERS, PER_SYLLABLE, add_all, add_in_stages, one_mask,
};

/// The basic features, each in a stage of its own, and whether every glyph has it.
const BASIC_FEATURES: [(&[u8; 4], bool); 11] = [
    (b"nukt", true),
    (b"akhn", true),
    (b"rphf", false),
    (b"rkrf", true),
    (b"pref", false),
    (b"blwf", false),
    (b"abvf", false),
    (b"half", false),
    (b"pstf", false),
    (b"vatu", true),
    (b"cjct", true),
];

/// The features after the last reordering, all in one stage, and whether every glyph has it.
const OTHER_FEATURES: [(&[u8; 4], bool); 6] = [
    (b"init", false),
    (b"pres", true),
    (b"abvs", true),
    (b"blws", true),
    (b"psts", true),
    (b"haln", true),
];

/// A match ends with its syllable, and passes over no joiner.
const WITHIN_SYLLABLE: FeatureFlags = FeatureFlags {
    per_syllable: true,
    ..MANUAL_JOINERS
};

/// Asks for the features, with the pauses at which syllables are found and reordered.
///
/// # Errors
///
/// `Err(AllocError)` where memory ran out.
///
/// # Proved
///
/// ```text
/// ensures pauses { IfOk result (λ _. builder.new.pauses.items ≡ builder.old.pauses.items ++ indic_pauses) }
/// ensures asks { IfOk result (λ _. Asks indic_features builder.old builder.new) }
/// ```
#[inline]
pub fn collect_features(builder: &mut PlanBuilder) -> Result<(), AllocError> {
    builder.add_gsub_pause(Pause::SetUpSyllables)?;
    builder.enable_feature(Tag::from_bytes(b"locl"), PER_SYLLABLE)?;
    builder.enable_feature(Tag::from_bytes(b"ccmp"), PER_SYLLABLE)?;
    builder.add_gsub_pause(Pause::InitialReordering)?;
    add_in_stages(builder, &BASIC_FEATURES, WITHIN_SYLLABLE)?;
    builder.add_gsub_pause(Pause::FinalReordering)?;
    add_all(builder, &OTHER_FEATURES, WITHIN_SYLLABLE)?;
    Ok(())
}

/// Turns standard ligatures off, behind the features of a user.
///
/// # Errors
///
/// `Err(AllocError)` where memory ran out.
///
/// # Proved
///
/// ```text
/// ensures pauses { HasSamePauses builder.old builder.new }
/// ensures asks { IfOk result (λ _. Asks indic_overrides builder.old builder.new) }
/// ```
#[inline]
pub fn override_features(builder: &mut PlanBuilder) -> Result<(), AllocError> {
    builder.disable_feature(Tag::from_bytes(b"liga"))?;
    Ok(())
}

/// The plan for a script and the features of a font.
///
/// # Proved
///
/// ```text
/// ensures is { result ≡ indic_plan script layout.now.gsub_script.0 result.masks result.forms }
/// ensures masks { AreMasks layout.now result.masks }
/// ensures forms { AreForms layout.now result.forms }
/// ```
#[inline]
pub fn plan(script: Option<Script>, layout: &LayoutPlan) -> IndicPlan {
    let masks = IndicMasks {
        rphf: one_mask(layout, b"rphf"),
        pref: one_mask(layout, b"pref"),
        blwf: one_mask(layout, b"blwf"),
        abvf: one_mask(layout, b"abvf"),
        half: one_mask(layout, b"half"),
        pstf: one_mask(layout, b"pstf"),
        init: one_mask(layout, b"init"),
    };
    let forms = ConsonantForms {
        pref: has_lookups(layout, b"pref"),
        blwf: has_lookups(layout, b"blwf"),
        pstf: has_lookups(layout, b"pstf"),
        vatu: has_lookups(layout, b"vatu"),
    };
    IndicPlan::new(script, layout.gsub_script, masks, forms)
}

/// Whether the font has lookups for a feature.
fn has_lookups(layout: &LayoutPlan, name: &[u8; 4]) -> bool {
    let places = layout.stage_places(Tag::from_bytes(name));
    places.start < places.end
}
