// Written by tools/plain_rust from crates/script_joining. Do not edit.

//! The features that Arabic and Syriac ask for, in their stages (OpenType, "Developing OpenType Fonts for Arabic Script").

use crate::common::{Script, Tag, script};
use crate::memory::AllocError;
use crate::ot_map::{FeatureFlags, LayoutPlan, Pause, PlanBuilder};

/// The features of forms, in the order of the numbers of `ArabicAction`, from `Isol` on.
pub const FORM_FEATURES: [&[u8; 4]; 7] = [
    b"isol", b"fina", b"fin2", b"fin3", b"medi", b"med2", b"init",
];

/// A zero width joiner keeps glyphs from becoming one.
const MANUAL_JOINER: FeatureFlags = FeatureFlags {
    manual_zwj: true,
    ..FeatureFlags::NONE
};

/// The same, for a feature that has a fallback.
const MANUAL_JOINER_WITH_FALLBACK: FeatureFlags = FeatureFlags {
    manual_zwj: true,
    has_fallback: true,
    ..FeatureFlags::NONE
};

/// Asks for the features, each stage behind those before. Forms are in stages of their own, and
/// ligatures behind them all.
///
/// # Errors
///
/// `Err(AllocError)` where memory ran out.
///
/// # Proved
///
/// ```text
/// ensures { IfOk result (λ _. Asks
///     (arabic_features (is_arabic script) (has_feature builder.old (tag_of (codes "rclt")))) builder.old builder.new) }
/// ```
#[inline]
pub fn collect_features(
    builder: &mut PlanBuilder,
    script: Option<Script>,
) -> Result<(), AllocError> {
    let is_arabic = is_arabic(script);
    add_first_stages(builder)?;
    add_forms(builder, &FORM_FEATURES, is_arabic)?;
    builder.enable_feature(Tag::from_bytes(b"rlig"), MANUAL_JOINER_WITH_FALLBACK)?;
    end_stage_if(builder, is_arabic, Pause::ArabicFallback)?;
    add_ligatures(builder)?;
    Ok(())
}

/// Whether a script is Arabic.
fn is_arabic(script: Option<Script>) -> bool {
    match script {
        Some(script) => script == script::ARABIC,
        None => false,
    }
}

/// Asks for the marks that are stretched, and what letters are composed of.
fn add_first_stages(builder: &mut PlanBuilder) -> Result<(), AllocError> {
    builder.enable_feature(Tag::from_bytes(b"stch"), FeatureFlags::NONE)?;
    builder.add_gsub_pause(Pause::RecordStch)?;
    builder.enable_feature(Tag::from_bytes(b"ccmp"), MANUAL_JOINER)?;
    builder.enable_feature(Tag::from_bytes(b"locl"), MANUAL_JOINER)?;
    builder.add_gsub_pause(Pause::Nothing)?;
    Ok(())
}

/// Asks for the features of forms, each in a stage of its own. Those of Arabic have a fallback.
fn add_forms(
    builder: &mut PlanBuilder,
    names: &[&[u8; 4]],
    is_arabic: bool,
) -> Result<(), AllocError> {
    for name in names {
        let flags = form_flags(name, is_arabic);
        builder.add_feature(Tag::from_bytes(name), flags, 1)?;
        builder.add_gsub_pause(Pause::Nothing)?;
    }
    Ok(())
}

/// How the feature of a form is applied.
fn form_flags(name: &[u8; 4], is_arabic: bool) -> FeatureFlags {
    if is_arabic && !is_syriac(name) {
        MANUAL_JOINER_WITH_FALLBACK
    } else {
        MANUAL_JOINER
    }
}

/// Whether only Syriac letters have the form: its feature ends with a number.
fn is_syriac(name: &[u8; 4]) -> bool {
    name[3] == b'2' || name[3] == b'3'
}

/// Ends a stage, or does not.
fn end_stage_if(builder: &mut PlanBuilder, ends: bool, pause: Pause) -> Result<(), AllocError> {
    if !ends {
        return Ok(());
    }
    builder.add_gsub_pause(pause)?;
    Ok(())
}

/// Asks for contextual forms, and for ligatures behind them unless the font has contextual forms that
/// it requires.
fn add_ligatures(builder: &mut PlanBuilder) -> Result<(), AllocError> {
    builder.enable_feature(Tag::from_bytes(b"calt"), MANUAL_JOINER)?;
    let requires_forms = builder.has_feature(Tag::from_bytes(b"rclt"));
    end_stage_if(builder, !requires_forms, Pause::Nothing)?;
    builder.enable_feature(Tag::from_bytes(b"liga"), MANUAL_JOINER)?;
    builder.enable_feature(Tag::from_bytes(b"clig"), MANUAL_JOINER)?;
    builder.enable_feature(Tag::from_bytes(b"mset"), MANUAL_JOINER)?;
    Ok(())
}

/// Whether the font has none of the forms of Arabic letters that a fallback makes.
///
/// # Proved
///
/// That it returns.
#[inline]
pub fn lacks_forms(layout: &LayoutPlan) -> bool {
    for name in FORM_FEATURES {
        if !is_syriac(name) && !layout.needs_fallback(Tag::from_bytes(name)) {
            return false;
        }
    }
    true
}
