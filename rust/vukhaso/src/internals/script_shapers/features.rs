// Written by tools/plain_rust from crates/script_shapers. Do not edit.

//! The features that the shaper of a script asks for.

use crate::common::{Script, Tag};
use crate::memory::AllocError;
use crate::ot_map::PlanBuilder;
use crate::script_joining::arabic;
use crate::script_letters::hangul;
use crate::script_shapers::shaper::ScriptShaper;
use crate::script_universal::{khmer, myanmar, universal};

/// Asks for the features of a script, behind those that every text has first.
///
/// # Errors
///
/// `Err(AllocError)` where memory ran out.
///
/// # Proved
///
/// ```text
/// ensures pauses { shaper ≢ Arabic
///     → IfOk result (λ _. builder.new.pauses.items ≡ builder.old.pauses.items ++ pauses_of shaper) }
/// ensures asks { IfOk result
///     (λ _. Asks (features_of shaper script (requires_forms builder.old)) builder.old builder.new) }
/// ```
#[inline]
pub fn collect_features(
    shaper: ScriptShaper,
    builder: &mut PlanBuilder,
    script: Option<Script>,
) -> Result<(), AllocError> {
    match shaper {
        ScriptShaper::Arabic => arabic::features::collect_features(builder, script),
        ScriptShaper::Hangul => hangul::add_jamo_features(builder),
        ScriptShaper::Indic => crate::script_indic::features::collect_features(builder),
        ScriptShaper::Khmer => khmer::features::collect_features(builder),
        ScriptShaper::Myanmar => myanmar::features::collect_features(builder),
        ScriptShaper::Universal | ScriptShaper::UniversalJoining => {
            universal::features::collect_features(builder)
        }
        ScriptShaper::Default
        | ScriptShaper::Hebrew
        | ScriptShaper::Thai
        | ScriptShaper::Zawgyi
        | ScriptShaper::Plain => Ok(()),
    }
}

/// Changes the features that were asked for, after those of the user: Hangul has no contextual
/// alternates, since fonts have jamo there.
///
/// # Errors
///
/// `Err(AllocError)` where memory ran out.
///
/// # Proved
///
/// ```text
/// ensures pauses { HasSamePauses builder.old builder.new }
/// ensures asks { IfOk result (λ _. Asks (overrides_of shaper) builder.old builder.new) }
/// ```
#[inline]
pub fn override_features(
    shaper: ScriptShaper,
    builder: &mut PlanBuilder,
) -> Result<(), AllocError> {
    match shaper {
        ScriptShaper::Hangul => {
            builder.disable_feature(Tag::from_bytes(b"calt"))?;
            Ok(())
        }
        ScriptShaper::Indic => crate::script_indic::features::override_features(builder),
        ScriptShaper::Khmer => khmer::features::override_features(builder),
        _ => Ok(()),
    }
}
