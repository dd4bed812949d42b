// Written by tools/plain_rust from crates/ot_plan. Do not edit.

//! How a text is shaped: the plan of its script, its language and its features.

use crate::aat_substitution::{ChainFlags, selected_features};
use crate::aat_tables::FeatureNames;
use crate::buffer::hb_buffer_t;
use crate::common::{Direction, Script, Tag};
use crate::font_face::Face;
use crate::font_functions::FontFunctions;
use crate::font_variations::substitutions_of;
use crate::memory::AllocError;
use crate::ot_map::{FeatureFlags, FontLayout, OtShapePlan, PlanBuilder, TextProperties};
use crate::ot_plan::decisions::{ChosenShaper, decided, kern_layout, mask};
use crate::ot_plan::form_places::FormPlaces;
use crate::ot_plan::glyphs_of_font::FaceGlyphs;
use crate::ot_tags::LanguageTags;
use crate::script_joining::FallbackLookups;
use crate::script_shapers::{
    ScriptPlan, ScriptShaper, SyllablePlan, collect_features, override_features, script_plan,
    syllable_plan,
};
use crate::text::tags::tags_from_script_and_language;
use crate::text::{Feature, Language, LanguageTable};

/// How a text is shaped by a font: its features and lookups, and what the shaper of its script makes of them.
#[derive(Debug)]
pub struct TextPlan {
    /// Features, lookups and positions.
    pub shape: OtShapePlan,
    /// What the shaper of the script does.
    pub script: ScriptPlan,
    /// What it does with syllables.
    pub syllables: SyllablePlan,
    /// Where the lookups of features stand that it asks of.
    pub forms: FormPlaces,
    /// The flags of the chains of Apple's table `morx`, where they stand in the place of the lookups of `GSUB`.
    pub chain_flags: Option<ChainFlags>,
    /// The bits of the glyphs that Apple's table `trak` moves.
    pub trak_mask: u32,
    /// The lookups that join Arabic letters, where the font has no features for them.
    pub fallback: Option<FallbackLookups>,
}

impl TextPlan {
    /// Whether the glyphs of syllables are put in another order between the stages of substitution.
    ///
    /// # Proved
    ///
    /// ```text
    /// ensures { result ≡ orders_syllables self.now.syllables }
    /// ```
    #[inline]
    pub fn orders_syllables(&self) -> bool {
        match self.syllables {
            SyllablePlan::None => false,
            SyllablePlan::Indic(_)
            | SyllablePlan::Khmer(_)
            | SyllablePlan::Myanmar
            | SyllablePlan::Universal(_) => true,
        }
    }
}

/// What is said of a text, as HarfBuzz's `hb_segment_properties_t`.
#[derive(Clone, Copy, Debug)]
pub(crate) struct SegmentProperties<'a> {
    /// The direction.
    pub direction: Direction,
    /// The script, if it is known.
    pub script: Option<Script>,
    /// The language, if it was said.
    pub language: Option<&'a Language>,
}

/// The plan for the text of a buffer.
///
/// # Errors
///
/// `Err(AllocError)` where memory ran out.
///
/// # Proved
///
/// ```text
/// ensures made { IfOk result (IsMadeOf face.now buffer.now.direction buffer.now.script
///     (scripts_of buffer.now.script buffer.now.language)) }
/// ensures decides { IfOk result (IsDecided face.now buffer.now.direction buffer.now.script
///     (scripts_of buffer.now.script buffer.now.language)) }
/// ensures asked { IfOk result (IsAskedFor face.now buffer.now.direction buffer.now.script
///     (scripts_of buffer.now.script buffer.now.language) (language_tags buffer.now.language) features.now) }
/// ```
#[inline]
pub fn plan_of_text<F: FontFunctions>(
    face: &Face,
    font: &F,
    buffer: &hb_buffer_t,
    features: &[Feature],
) -> Result<TextPlan, AllocError> {
    let segment = SegmentProperties {
        direction: buffer.direction,
        script: buffer.script,
        language: buffer.language.as_ref(),
    };
    plan_for(face, font, &segment, features)
}

/// The plan for texts with these properties. The tags of a language are those that it names itself, or
/// those of OpenType's registry.
pub(crate) fn plan_for<F: FontFunctions>(
    face: &Face,
    font: &F,
    segment: &SegmentProperties,
    features: &[Feature],
) -> Result<TextPlan, AllocError> {
    let Some(table) = LanguageTable::new(&[]) else {
        return Err(AllocError);
    };
    let found = LanguageTags::of(segment.language);
    let (scripts, languages) =
        tags_from_script_and_language(segment.script, segment.language, &table, &found);
    let text = TextProperties {
        direction: segment.direction,
        scripts: scripts.as_slice(),
        languages: languages.as_slice(),
    };
    plan_of(face, font, segment, &text, features)
}

/// The plan for a text with these properties.
///
/// # Requires
///
/// - `text.now.direction ≡ segment.now.direction`
fn plan_of<F: FontFunctions>(
    face: &Face,
    font: &F,
    segment: &SegmentProperties,
    text: &TextProperties,
    features: &[Feature],
) -> Result<TextPlan, AllocError> {
    let tables = layout_of(face);
    let substitutes = substitutes_by_morx(face, segment.direction);
    let mut builder = OtShapePlan::begin(&tables, text)?;
    let chosen = add_features(&mut builder, segment, features, substitutes)?;
    let layout = builder.compile()?;
    let shape = decided(layout, &tables, segment.direction, &chosen);
    let chain_flags = chain_flags_of(face, features, substitutes)?;
    let trak_mask = mask(&shape.layout, b"trak");
    let syllables = syllable_plan(chosen.shaper, segment.script, &shape.layout);
    let script = script_plan(
        chosen.shaper,
        segment.script,
        &shape.layout,
        chosen.finds_script,
    );
    let fallback = fallback_of(face, font, &script)?;
    let forms = FormPlaces::new(&shape.layout);
    Ok(TextPlan {
        shape,
        script,
        syllables,
        forms,
        chain_flags,
        trak_mask,
        fallback,
    })
}

/// What the plan asks of the font.
fn layout_of<'a>(face: &'a Face) -> FontLayout<'a> {
    FontLayout {
        gsub: face.layout.gsub,
        gpos: face.layout.gpos,
        kern: kern_layout(face),
        gsub_substitutions: substitutions_of(face.layout.gsub, face.coordinates()),
        gpos_substitutions: substitutions_of(face.layout.gpos, face.coordinates()),
    }
}

/// Whether Apple's table `morx` substitutes glyphs in place of the lookups of `GSUB`: in horizontal
/// lines, and where the font has no lookups of `GSUB`.
fn substitutes_by_morx(face: &Face, direction: Direction) -> bool {
    !face.lookups.morx.chains.is_empty()
        && (direction.is_horizontal() || face.layout.gsub.is_empty())
}

/// The flags of the chains of `morx`, where it substitutes glyphs and these features are asked for.
fn chain_flags_of(
    face: &Face,
    features: &[Feature],
    substitutes_by_morx: bool,
) -> Result<Option<ChainFlags>, AllocError> {
    if !substitutes_by_morx {
        return Ok(None);
    }
    let names = FeatureNames::new(face.layout.feat);
    let selected = selected_features(&names, features)?;
    let flags = ChainFlags::new(&face.lookups.morx, selected.as_slice())?;
    Ok(Some(flags))
}

/// The lookups that join Arabic letters, where the shaper of the script makes them.
fn fallback_of<F: FontFunctions>(
    face: &Face,
    font: &F,
    script: &ScriptPlan,
) -> Result<Option<FallbackLookups>, AllocError> {
    if !script.does_fallback {
        return Ok(None);
    }
    let glyphs = FaceGlyphs { face, font };
    Ok(Some(FallbackLookups::new(
        &glyphs,
        &script.masks,
        script.rlig_mask,
    )?))
}

/// Chooses the shaper of a script, and asks for its features, those of every text and of a user.
fn add_features(
    builder: &mut PlanBuilder,
    segment: &SegmentProperties,
    features: &[Feature],
    substitutes_by_morx: bool,
) -> Result<ChosenShaper, AllocError> {
    let own = ScriptShaper::of(segment.script, segment.direction, builder.gsub.script.tag);
    let shaper = own.with_morx(substitutes_by_morx);
    let chosen = ChosenShaper {
        own,
        shaper,
        substitutes_by_morx,
        finds_script: builder.gsub.script.is_found,
    };
    let with_fallback = FeatureFlags {
        has_fallback: true,
        ..FeatureFlags::NONE
    };
    builder.enable_feature(Tag::from_bytes(b"trak"), with_fallback)?;
    collect_features(chosen.shaper, builder, segment.script)?;
    OtShapePlan::add_common_features(builder, segment.direction, features)?;
    override_features(chosen.shaper, builder)?;
    Ok(chosen)
}
