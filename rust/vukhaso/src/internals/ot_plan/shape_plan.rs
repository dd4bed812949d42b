// Written by tools/plain_rust from crates/ot_plan. Do not edit.

//! Plans: how texts of one script, language and direction are shaped by a font, found once for all of them.

use crate::buffer::{Direction, Feature, Language, UnicodeBuffer, hb_buffer_t};
use crate::common::{Script, script};
use crate::font_face::Face;
use crate::font_functions::{FontFunctions, OwnFunctions};
use crate::memory::{AllocError, String, Vec};
use crate::ot_plan::planning::{SegmentProperties, TextPlan, plan_for};

/// How texts of a script, a language and a direction are shaped by a font, with some features, and at the variations that were
/// chosen when it was made.
///
/// # Proved
///
/// ```text
/// ghost Value = { MadePlan }
/// ghost view = { λ p. record {
///   texts = record {
///     direction = p.direction;
///     script = p.script;
///     language = option_map string_bytes p.language;
///     features = p.features.items;
///     coordinates = p.coordinates.items;
///   };
///   made = p.made;
/// } }
/// ```
#[derive(Debug)]
pub struct ShapePlan {
    made: TextPlan,
    direction: Direction,
    script: Option<Script>,
    language: Option<String>,
    features: Vec<Feature>,
    coordinates: Vec<i32>,
}

impl ShapePlan {
    /// The plan for texts with these properties. It is for this font alone.
    ///
    /// # Errors
    ///
    /// `Err(AllocError)` where memory runs out.
    ///
    /// # Proved
    ///
    /// ```text
    /// ensures texts { IfOk result (λ plan. plan.texts ≡ record {
    ///       direction = direction;
    ///       script = script;
    ///       language = option_copied language.entry;
    ///       features = user_features.now;
    ///       coordinates = face.now.variations.coordinates.items;
    ///     }) }
    /// ensures made { IfOk result (λ plan. IsMadeOf face.now direction script
    ///     (scripts_of script (option_copied language.entry)) plan.made) }
    /// ensures decides { IfOk result (λ plan. IsDecided face.now direction script
    ///     (scripts_of script (option_copied language.entry)) plan.made) }
    /// ensures asked { IfOk result (λ plan. IsAskedFor face.now direction script
    ///     (scripts_of script (option_copied language.entry)) (language_tags (option_copied language.entry))
    ///     user_features.now plan.made) }
    /// ```
    #[inline]
    pub fn new(
        face: &Face,
        direction: Direction,
        script: Option<Script>,
        language: Option<&Language>,
        user_features: &[Feature],
    ) -> Result<Self, AllocError> {
        let own = OwnFunctions { face };
        let segment = SegmentProperties {
            direction,
            script,
            language,
        };
        Self::with_functions(face, &own, &segment, user_features)
    }

    /// The plan for such texts by a font of which these functions answer. It is for this font and these
    /// functions alone.
    pub(crate) fn with_functions<F: FontFunctions>(
        face: &Face,
        font: &F,
        segment: &SegmentProperties,
        user_features: &[Feature],
    ) -> Result<Self, AllocError> {
        Ok(ShapePlan {
            made: plan_for(face, font, segment, user_features)?,
            direction: segment.direction,
            script: segment.script,
            language: text_of_language(segment.language)?,
            features: copy_of_features(user_features)?,
            coordinates: copy_of_coordinates(face)?,
        })
    }

    /// The direction of its texts.
    ///
    /// # Proved
    ///
    /// ```text
    /// ensures { result ≡ self.now.texts.direction }
    /// ```
    #[inline]
    pub fn direction(&self) -> Direction {
        self.direction
    }

    /// The script of its texts.
    ///
    /// # Proved
    ///
    /// ```text
    /// ensures { result ≡ self.now.texts.script }
    /// ```
    #[inline]
    pub fn script(&self) -> Option<Script> {
        self.script
    }

    /// The features that it was made with.
    ///
    /// # Proved
    ///
    /// ```text
    /// ensures { result.now ≡ self.now.texts.features }
    /// ```
    #[inline]
    pub fn features(&self) -> &[Feature] {
        self.features.as_slice()
    }

    /// Whether a text has the script, the language and the direction of the plan, a font is at its place in
    /// the variations, and features are those of the plan but for where a range of the text begins and ends
    /// (HarfBuzz's `hb_shape_plan_key_t::equal`). That it is the font that the plan was made for is for the
    /// caller to know.
    ///
    /// # Proved
    ///
    /// ```text
    /// ensures { IsTrue result ↔ IsFor self.now face.now features.now text.now }
    /// ```
    #[inline]
    pub fn is_for(&self, face: &Face, features: &[Feature], text: &UnicodeBuffer) -> bool {
        self.is_said(text.direction(), text.script(), text.language())
            && self.is_with(features, face.coordinates())
    }

    /// Whether it is the plan that would be made for the text of a buffer.
    pub(crate) fn is_plan_of(
        &self,
        face: &Face,
        features: &[Feature],
        buffer: &hb_buffer_t,
    ) -> bool {
        let script = buffer.script.unwrap_or(script::UNKNOWN);
        self.is_said(buffer.direction, script, buffer.language.as_ref())
            && self.is_with(features, face.coordinates())
            && self.script == buffer.script
    }

    /// Whether its texts have this direction, this script and this language.
    fn is_said(&self, direction: Direction, script: Script, language: Option<&Language>) -> bool {
        self.direction == direction
            && self.script.unwrap_or(script::UNKNOWN) == script
            && is_text_of(&self.language, language)
    }

    /// Whether it was made with these features, at these coordinates.
    fn is_with(&self, features: &[Feature], coordinates: &[i32]) -> bool {
        are_asked(&self.made, self.features.as_slice(), features)
            && are_same(self.coordinates.as_slice(), coordinates)
    }
}

/// What a plan does with a text.
///
/// # Proved
///
/// ```text
/// ensures { result.now ≡ plan.now.made }
/// ```
#[inline]
pub fn text_plan(plan: &ShapePlan) -> &TextPlan {
    &plan.made
}

/// Whether a plan has the same of two lists of features.
fn are_asked(plan: &TextPlan, one: &[Feature], other: &[Feature]) -> bool {
    if one.len() != other.len() {
        return false;
    }
    for place in 0..one.len() {
        if !is_asked_alike(plan, &one[place], &other[place]) {
            return false;
        }
    }
    true
}

/// Whether a plan has the same of two features.
fn is_asked_alike(plan: &TextPlan, one: &Feature, other: &Feature) -> bool {
    asked(plan, one) == asked(plan, other)
}

/// What a plan has of a feature.
fn asked(plan: &TextPlan, feature: &Feature) -> Feature {
    if plan.chain_flags.is_some() || feature.is_global() {
        return *feature;
    }
    Feature {
        start: 1,
        end: 2,
        ..*feature
    }
}

/// Whether coordinates are the same.
fn are_same(one: &[i32], other: &[i32]) -> bool {
    one == other
}

/// The text of a language, which is kept with a plan.
fn text_of_language(language: Option<&Language>) -> Result<Option<String>, AllocError> {
    let Some(language) = language else {
        return Ok(None);
    };
    let mut text = String::new();
    text.push_str(language.as_str())?;
    Ok(Some(text))
}

/// A copy of features, which is kept with a plan.
fn copy_of_features(features: &[Feature]) -> Result<Vec<Feature>, AllocError> {
    let mut copy = Vec::new();
    copy.extend_from_slice(features)?;
    Ok(copy)
}

/// A copy of the coordinates that are chosen, which is kept with a plan.
fn copy_of_coordinates(face: &Face) -> Result<Vec<i32>, AllocError> {
    let mut copy = Vec::new();
    copy.extend_from_slice(face.coordinates())?;
    Ok(copy)
}

/// Whether a text that is kept is that of a language.
fn is_text_of(text: &Option<String>, language: Option<&Language>) -> bool {
    match (text, language) {
        (Some(text), Some(language)) => text.as_str() == language.as_str(),
        (None, None) => true,
        _ => false,
    }
}
