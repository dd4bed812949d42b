// Written by tools/plain_rust from crates/script_syllables. Do not edit.

//! Features that are asked for together, and the masks that they have then.

use crate::common::Tag;
use crate::memory::AllocError;
use crate::ot_map::{FeatureFlags, LayoutPlan, Pause, PlanBuilder};

/// A match ends with its syllable.
pub const PER_SYLLABLE: FeatureFlags = FeatureFlags {
    per_syllable: true,
    ..FeatureFlags::NONE
};

/// An input passes over no joiner.
pub const MANUAL_JOINER: FeatureFlags = FeatureFlags {
    manual_zwj: true,
    ..FeatureFlags::NONE
};

/// A match passes over no joiner.
pub const MANUAL_JOINERS: FeatureFlags = FeatureFlags {
    manual_zwnj: true,
    ..MANUAL_JOINER
};

/// The features of presentation forms, and whether every glyph has it.
pub const PRESENTATION_FEATURES: [(&[u8; 4], bool); 4] = [
    (b"pres", true),
    (b"abvs", true),
    (b"blws", true),
    (b"psts", true),
];

/// Asks for features in one stage. Beside the name of each is whether every glyph has it.
///
/// # Errors
///
/// `Err(AllocError)` where memory ran out.
///
/// # Proved
///
/// ```text
/// ensures pauses { HasSamePauses builder.old builder.new }
/// ensures asks { IfOk result (λ _. Asks (map (λ it. of_some flags it.1 it.0.now) features.now) builder.old builder.new) }
/// ```
#[inline]
pub fn add_all(
    builder: &mut PlanBuilder,
    features: &[(&[u8; 4], bool)],
    flags: FeatureFlags,
) -> Result<(), AllocError> {
    for (name, is_global) in features {
        add_one(builder, name, *is_global, flags)?;
    }
    Ok(())
}

/// Asks for features, each in a stage of its own. Beside the name of each is whether every glyph has
/// it.
///
/// # Errors
///
/// `Err(AllocError)` where memory ran out.
///
/// # Proved
///
/// ```text
/// ensures pauses { IfOk result (λ _. builder.new.pauses.items ≡ builder.old.pauses.items ++ replicate (length features.now) Nothing) }
/// ensures asks { IfOk result
///     (λ _. Asks (in_stages (map (λ it. of_some flags it.1 it.0.now) features.now)) builder.old builder.new) }
/// ```
#[inline]
pub fn add_in_stages(
    builder: &mut PlanBuilder,
    features: &[(&[u8; 4], bool)],
    flags: FeatureFlags,
) -> Result<(), AllocError> {
    for (name, is_global) in features {
        add_one(builder, name, *is_global, flags)?;
        builder.add_gsub_pause(Pause::Nothing)?;
    }
    Ok(())
}

/// Asks for a feature.
fn add_one(
    builder: &mut PlanBuilder,
    name: &[u8; 4],
    is_global: bool,
    flags: FeatureFlags,
) -> Result<(), AllocError> {
    let flags = FeatureFlags { is_global, ..flags };
    builder.add_feature(Tag::from_bytes(name), flags, 1)?;
    Ok(())
}

/// The mask of the value 1 of a feature; 0 where the plan has none with this name.
///
/// # Proved
///
/// ```text
/// ensures { IsOneMask layout.now name.now result }
/// ```
#[inline]
pub fn one_mask(layout: &LayoutPlan, name: &[u8; 4]) -> u32 {
    layout.one_mask(Tag::from_bytes(name))
}
