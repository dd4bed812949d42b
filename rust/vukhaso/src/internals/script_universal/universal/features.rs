// Written by tools/plain_rust from crates/script_universal. Do not edit.

//! The features that scripts of the universal shaper ask for, in their stages (OpenType, "Creating and supporting OpenType fonts for the
//! Universal Shaping Engine").

use crate::common::Tag;
use crate::memory::AllocError;
use crate::ot_map::{FeatureFlags, LayoutPlan, Pause, PlanBuilder};
use crate::script_syllables::requests::{MANUAL_JOINER, PER_SYLLABLE, add_all, one_mask};
use crate::script_universal::universal::plan::{FormMasks, UniversalPlan};

/// The features of single letters, and whether every glyph has it.
const LETTER_FEATURES: [(&[u8; 4], bool); 3] = [(b"locl", true), (b"ccmp", true), (b"nukt", true)];

/// The basic features, all in one stage, and whether every glyph has it.
const BASIC_FEATURES: [(&[u8; 4], bool); 7] = [
    (b"rkrf", true),
    (b"abvf", true),
    (b"blwf", true),
    (b"half", true),
    (b"pstf", true),
    (b"vatu", true),
    (b"cjct", true),
];

/// The features of syllables by where they stand in a word, all in one stage, and whether every glyph has it.
const FORM_FEATURES: [(&[u8; 4], bool); 4] = [
    (b"isol", false),
    (b"init", false),
    (b"medi", false),
    (b"fina", false),
];

/// The features after that, and whether every glyph has it.
const OTHER_FEATURES: [(&[u8; 4], bool); 5] = [
    (b"abvs", true),
    (b"blws", true),
    (b"haln", true),
    (b"pres", true),
    (b"psts", true),
];

/// No form.
const NO_FORMS: FormMasks = FormMasks {
    isol: 0,
    init: 0,
    medi: 0,
    fina: 0,
};

/// An input passes over no joiner, and ends with its syllable.
const WITHIN_SYLLABLE: FeatureFlags = FeatureFlags {
    per_syllable: true,
    ..MANUAL_JOINER
};

/// Asks for the features, with the pauses at which syllables are found and reordered.
///
/// # Errors
///
/// `Err(AllocError)` where memory ran out.
///
/// # Proved
///
/// ```text
/// ensures pauses { IfOk result (λ _. builder.new.pauses.items ≡ builder.old.pauses.items ++ universal_pauses) }
/// ensures asks { IfOk result (λ _. Asks universal_features builder.old builder.new) }
/// ```
#[inline]
pub fn collect_features(builder: &mut PlanBuilder) -> Result<(), AllocError> {
    add_basic_features(builder)?;
    add_all(builder, &FORM_FEATURES, FeatureFlags::NONE)?;
    builder.add_gsub_pause(Pause::Nothing)?;
    add_all(builder, &OTHER_FEATURES, MANUAL_JOINER)?;
    Ok(())
}

/// Asks for the features of syllables.
fn add_basic_features(builder: &mut PlanBuilder) -> Result<(), AllocError> {
    builder.add_gsub_pause(Pause::SetUpSyllables)?;
    add_all(builder, &LETTER_FEATURES, PER_SYLLABLE)?;
    builder.enable_feature(Tag::from_bytes(b"akhn"), WITHIN_SYLLABLE)?;
    add_recorded_features(builder)?;
    add_all(builder, &BASIC_FEATURES, WITHIN_SYLLABLE)?;
    builder.add_gsub_pause(Pause::InitialReordering)?;
    builder.add_gsub_pause(Pause::Nothing)?;
    Ok(())
}

/// Asks for the features of which it is noted where they have made a glyph.
fn add_recorded_features(builder: &mut PlanBuilder) -> Result<(), AllocError> {
    builder.add_gsub_pause(Pause::ClearSubstitutionFlags)?;
    builder.add_feature(Tag::from_bytes(b"rphf"), WITHIN_SYLLABLE, 1)?;
    builder.add_gsub_pause(Pause::RecordRphf)?;
    builder.add_gsub_pause(Pause::ClearSubstitutionFlags)?;
    builder.enable_feature(Tag::from_bytes(b"pref"), WITHIN_SYLLABLE)?;
    builder.add_gsub_pause(Pause::RecordPref)?;
    Ok(())
}

/// The plan for the features of a font. `joins` says whether the letters of the script join by
/// themselves.
///
/// # Proved
///
/// ```text
/// ensures rephs { IsOneMask layout.now (codes "rphf") result.rphf }
/// ensures letters { joins ≡ true → result.forms ≡ no_forms }
/// ensures forms { joins ≡ false → AreFormMasks layout.now result.forms }
/// ```
#[inline]
pub fn plan(joins: bool, layout: &LayoutPlan) -> UniversalPlan {
    let rphf = one_mask(layout, b"rphf");
    if joins {
        return UniversalPlan {
            rphf,
            forms: NO_FORMS,
        };
    }
    UniversalPlan {
        rphf,
        forms: form_masks(layout),
    }
}

/// The masks of the forms of syllables.
fn form_masks(layout: &LayoutPlan) -> FormMasks {
    FormMasks {
        isol: form_mask(layout, b"isol"),
        init: form_mask(layout, b"init"),
        medi: form_mask(layout, b"medi"),
        fina: form_mask(layout, b"fina"),
    }
}

/// The mask of a form; 0 where every glyph has it.
fn form_mask(layout: &LayoutPlan, name: &[u8; 4]) -> u32 {
    let mask = one_mask(layout, name);
    unless_global(mask, layout.global_mask)
}

/// A mask, unless it is that of every glyph.
fn unless_global(mask: u32, global: u32) -> u32 {
    if mask == global { 0 } else { mask }
}
