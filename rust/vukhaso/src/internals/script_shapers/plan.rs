// Written by tools/plain_rust from crates/script_shapers. Do not edit.

//! What the features of a font make of a script's shaper.

use crate::common::{Script, Tag, script};
use crate::ot_map::LayoutPlan;
use crate::script_joining::arabic::features::{FORM_FEATURES, lacks_forms};
use crate::script_letters::hangul::JAMO_FEATURES;
use crate::script_shapers::shaper::ScriptShaper;

/// What the features of a font make of a script's shaper: HarfBuzz's `data_create`.
#[derive(Clone, Copy, Debug)]
pub struct ScriptPlan {
    /// The shaper.
    pub shaper: ScriptShaper,
    /// Whether the text is Mongolian.
    pub is_mongolian: bool,
    /// Whether Thai marks are to be shaped by glyphs of the private use area: the font has no lookups for Thai.
    pub has_private_use: bool,
    /// Whether the font stretches marks.
    pub has_stch: bool,
    /// Whether the font has no forms of Arabic letters, so that a fallback makes them.
    pub does_fallback: bool,
    /// Whether the font places marks by its lookups.
    pub has_gpos_mark: bool,
    /// The mask of the ligatures that Arabic requires.
    pub rlig_mask: u32,
    /// The mask of an item, by the number that it keeps.
    pub masks: [u32; 8],
}

/// The plan of a shaper, for a script and a font's features. `finds_script` says whether the font's
/// table `GSUB` has the script.
///
/// # Proved
///
/// ```text
/// ensures shaper { result.shaper ≡ shaper }
/// ensures pieces { shaper ≢ Arabic → result.has_stch ≡ false }
/// ensures fallback { shaper ≢ Arabic → result.does_fallback ≡ false }
/// ensures found { finds_script ≡ true → result.has_private_use ≡ false }
/// ```
pub fn script_plan(
    shaper: ScriptShaper,
    script: Option<Script>,
    layout: &LayoutPlan,
    finds_script: bool,
) -> ScriptPlan {
    let is_arabic = shaper == ScriptShaper::Arabic;
    ScriptPlan {
        shaper,
        is_mongolian: script == Some(script::MONGOLIAN),
        has_private_use: script == Some(script::THAI) && !finds_script,
        has_stch: is_arabic && layout.one_mask(Tag::from_bytes(b"stch")) != 0,
        does_fallback: is_arabic && script == Some(script::ARABIC) && lacks_forms(layout),
        has_gpos_mark: layout.one_mask(Tag::from_bytes(b"mark")) != 0,
        rlig_mask: layout.one_mask(Tag::from_bytes(b"rlig")),
        masks: match shaper {
            ScriptShaper::Arabic | ScriptShaper::UniversalJoining => {
                masks_of(&FORM_FEATURES, layout)
            }
            ScriptShaper::Hangul => masks_of(&JAMO_FEATURES, layout),
            _ => [0; 8],
        },
    }
}

/// The masks of features, from the number 1 on.
fn masks_of(features: &[&[u8; 4]], layout: &LayoutPlan) -> [u32; 8] {
    let mut masks = [0; 8];
    for (mask, name) in masks.iter_mut().skip(1).zip(features.iter()) {
        *mask = layout.one_mask(Tag::from_bytes(name));
    }
    masks
}
