// Written by tools/plain_rust from crates/ot_map. Do not edit.

//! The features that every text asks for: HarfBuzz's `hb_ot_shape_collect_features`.

use crate::common::{Direction, Tag};
use crate::memory::AllocError;
use crate::ot_map::bits::MAX_VALUE;
use crate::ot_map::builder::PlanBuilder;
use crate::ot_map::plan::Pause;
use crate::ot_map::request::FeatureFlags;
use crate::text::Feature;

/// No joiner is passed over.
const MANUAL_JOINERS: FeatureFlags = FeatureFlags {
    is_global: true,
    manual_zwnj: true,
    manual_zwj: true,
    ..FeatureFlags::NONE
};

/// Asks for the features that come before those of a script's shaper.
pub(crate) fn add_first_features(
    builder: &mut PlanBuilder,
    direction: Direction,
) -> Result<(), AllocError> {
    builder.enable_feature(Tag::from_bytes(b"rvrn"), FeatureFlags::NONE)?;
    builder.add_gsub_pause(Pause::Nothing)?;
    add_direction_features(builder, direction)?;
    add_chosen_features(builder)?;
    Ok(())
}

/// Asks for forms of a direction.
fn add_direction_features(
    builder: &mut PlanBuilder,
    direction: Direction,
) -> Result<(), AllocError> {
    match direction {
        Direction::LeftToRight => {
            enable_all(builder, &[b"ltra", b"ltrm"], FeatureFlags::NONE)?;
            Ok(())
        }
        Direction::RightToLeft => {
            builder.enable_feature(Tag::from_bytes(b"rtla"), FeatureFlags::NONE)?;
            builder.add_feature(Tag::from_bytes(b"rtlm"), FeatureFlags::NONE, 1)?;
            Ok(())
        }
        _ => Ok(()),
    }
}

/// Asks for fractions, for alternates at random, and for the features of HarfBuzz's name.
fn add_chosen_features(builder: &mut PlanBuilder) -> Result<(), AllocError> {
    builder.add_feature(Tag::from_bytes(b"frac"), FeatureFlags::NONE, 1)?;
    builder.add_feature(Tag::from_bytes(b"numr"), FeatureFlags::NONE, 1)?;
    builder.add_feature(Tag::from_bytes(b"dnom"), FeatureFlags::NONE, 1)?;
    let at_random = FeatureFlags {
        is_global: true,
        random: true,
        ..FeatureFlags::NONE
    };
    builder.add_feature(Tag::from_bytes(b"rand"), at_random, MAX_VALUE)?;
    enable_all(builder, &[b"Harf", b"HARF"], FeatureFlags::NONE)?;
    Ok(())
}

/// Asks for the features that come after those of a script's shaper.
pub(crate) fn add_last_features(
    builder: &mut PlanBuilder,
    direction: Direction,
) -> Result<(), AllocError> {
    add_common(builder)?;
    if direction.is_horizontal() {
        add_horizontal_features(builder)?;
        Ok(())
    } else {
        let searched = FeatureFlags {
            global_search: true,
            ..FeatureFlags::NONE
        };
        enable_all(builder, &[b"vert"], searched)?;
        Ok(())
    }
}

/// Asks for the features of all lines.
fn add_common(builder: &mut PlanBuilder) -> Result<(), AllocError> {
    let names = [
        b"Buzz", b"BUZZ", b"abvm", b"blwm", b"ccmp", b"locl", b"rlig",
    ];
    enable_all(builder, &names, FeatureFlags::NONE)?;
    enable_all(builder, &[b"mark", b"mkmk"], MANUAL_JOINERS)?;
    Ok(())
}

/// Asks for the features of horizontal lines.
fn add_horizontal_features(builder: &mut PlanBuilder) -> Result<(), AllocError> {
    let names = [b"calt", b"clig", b"curs", b"dist", b"liga", b"rclt"];
    enable_all(builder, &names, FeatureFlags::NONE)?;
    let with_fallback = FeatureFlags {
        has_fallback: true,
        ..FeatureFlags::NONE
    };
    enable_all(builder, &[b"kern"], with_fallback)?;
    Ok(())
}

/// Asks for features of every glyph.
fn enable_all(
    builder: &mut PlanBuilder,
    names: &[&[u8; 4]],
    flags: FeatureFlags,
) -> Result<(), AllocError> {
    for name in names {
        builder.enable_feature(Tag::from_bytes(name), flags)?;
    }
    Ok(())
}

/// Asks for the features of a user.
pub(crate) fn add_user_features(
    builder: &mut PlanBuilder,
    features: &[Feature],
) -> Result<(), AllocError> {
    for feature in features {
        let flags = FeatureFlags {
            is_global: is_whole(feature),
            ..FeatureFlags::NONE
        };
        builder.add_feature(feature.tag, flags, feature.value)?;
    }
    Ok(())
}

/// Whether a feature is one of the whole text.
fn is_whole(feature: &Feature) -> bool {
    feature.is_global()
}
