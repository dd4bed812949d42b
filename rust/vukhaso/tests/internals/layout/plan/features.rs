//! Features that are asked for, and the plan that is made of them.

use crate::Fail;
use crate::layout::plan::TABLE;
use std::ops::Bound;
use vukhaso::internals::common::{Direction, Script, Tag, script};
use vukhaso::internals::font_face::Face;
use vukhaso::internals::ot_map::builder::ChosenTable;
use vukhaso::internals::ot_map::{FeatureFlags, LayoutPlan, Pause, PlanBuilder};
use vukhaso::internals::ot_plan::{ShapePlan, text_plan};
use vukhaso::internals::text::Feature;
use vukhaso::memory::AllocError;

/// What is asked of a builder, of a feature by its tag.
enum Ask {
    Enable(&'static [u8; 4], FeatureFlags),
    Add(&'static [u8; 4], u32),
    Disable(&'static [u8; 4]),
    Pause(Pause),
}

/// Asks for a feature or a pause.
fn request(builder: &mut PlanBuilder, what: &Ask) -> Result<(), AllocError> {
    match what {
        Ask::Enable(tag, flags) => builder.enable_feature(Tag::from_bytes(tag), *flags),
        Ask::Add(tag, value) => {
            builder.add_feature(Tag::from_bytes(tag), FeatureFlags::NONE, *value)
        }
        Ask::Disable(tag) => builder.disable_feature(Tag::from_bytes(tag)),
        Ask::Pause(pause) => builder.add_gsub_pause(*pause),
    }
}

/// A builder for Latin text in a language, where variations choose these tables of features.
fn builder(languages: &[Tag], substitutions: &'static [u8]) -> PlanBuilder<'static> {
    let scripts = [Tag::from_bytes(b"latn")];
    let gsub = ChosenTable::new(TABLE, &scripts, languages).with_substitutions(substitutions);
    let gpos = ChosenTable::new(&[], &scripts, languages);
    PlanBuilder::new(gsub, gpos)
}

/// The plan of what is asked for.
fn planned(
    languages: &[Tag],
    substitutions: &'static [u8],
    asks: &[Ask],
) -> Result<LayoutPlan, AllocError> {
    let mut builder = builder(languages, substitutions);
    for what in asks {
        request(&mut builder, what)?;
    }
    builder.compile()
}

/// The numbers and the masks of the lookups of substitution.
fn has_lookups(plan: &LayoutPlan, expected: &[(u16, u32)]) -> bool {
    plan.gsub_lookups.len() == expected.len()
        && plan
            .gsub_lookups
            .iter()
            .zip(expected)
            .all(|(lookup, row)| lookup.index == row.0 && lookup.mask == row.1)
}

/// What is asked for, and what a plan of it has: how many features, the mask of every glyph, the masks of features, and lookups.
struct Row {
    name: &'static str,
    languages: &'static [Tag],
    substitutions: &'static [u8],
    asks: &'static [Ask],
    count: usize,
    global_mask: u32,
    masks: &'static [(&'static [u8; 4], u32)],
    lookups: &'static [(u16, u32)],
}

/// The table of a feature, as variations of a font choose it: `liga` has the lookup 0 in the place of the lookup 1.
const SUBSTITUTIONS: &[u8] = &[0, 1, 0, 0, 0, 1, 0, 0, 0, 0, 0, 12, 0, 0, 0, 1, 0, 0];

/// Turkish.
const TURKISH: Tag = Tag(0x54524B20);

/// Of every glyph, and with a fallback.
const WITH_FALLBACK: FeatureFlags = FeatureFlags {
    has_fallback: true,
    ..FeatureFlags::NONE
};

/// Features of which the font lacks one.
const ASKED: &[Ask] = &[
    Ask::Enable(b"liga", FeatureFlags::NONE),
    Ask::Add(b"smcp", 1),
    Ask::Add(b"frac", 5),
    Ask::Enable(b"abcd", FeatureFlags::NONE),
];

/// Two stages.
const STAGES: &[Ask] = &[
    Ask::Enable(b"frac", FeatureFlags::NONE),
    Ask::Pause(Pause::SetUpSyllables),
    Ask::Enable(b"liga", FeatureFlags::NONE),
];

/// A feature that the font lacks.
const FALLBACK: &[Ask] = &[Ask::Enable(b"kern", WITH_FALLBACK), Ask::Add(b"kern", 3)];

static ROWS: [Row; 5] = [
    Row {
        name: "features get bits in the order of tags, and a lookup of two features the masks of both",
        languages: &[],
        substitutions: &[],
        asks: ASKED,
        count: 3,
        global_mask: 0x8000_0000,
        masks: &[(b"frac", 0x70), (b"smcp", 0x80), (b"abcd", 0)],
        lookups: &[(0, 0x80), (1, 0x8000_0080), (2, 0x70)],
    },
    Row {
        name: "a feature that the font lacks stays where there is a fallback, its default in the mask of every glyph",
        languages: &[],
        substitutions: &[],
        asks: FALLBACK,
        count: 1,
        global_mask: 0x8000_0010,
        masks: &[(b"kern", 0x30)],
        lookups: &[],
    },
    Row {
        name: "a feature that is turned off is not there, and one that the language requires is",
        languages: &[TURKISH],
        substitutions: &[],
        asks: &[
            Ask::Enable(b"smcp", FeatureFlags::NONE),
            Ask::Disable(b"smcp"),
        ],
        count: 0,
        global_mask: 0x8000_0000,
        masks: &[],
        lookups: &[(2, 0x8000_0000)],
    },
    Row {
        name: "lookups of a later stage come behind those of an earlier one",
        languages: &[],
        substitutions: &[],
        asks: STAGES,
        count: 2,
        global_mask: 0x8000_0000,
        masks: &[],
        lookups: &[(2, 0x8000_0000), (1, 0x8000_0000)],
    },
    Row {
        name: "features vary",
        languages: &[],
        substitutions: SUBSTITUTIONS,
        asks: &[
            Ask::Enable(b"frac", FeatureFlags::NONE),
            Ask::Enable(b"liga", FeatureFlags::NONE),
        ],
        count: 2,
        global_mask: 0x8000_0000,
        masks: &[],
        lookups: &[(0, 0x8000_0000), (2, 0x8000_0000)],
    },
];

/// The mask of a feature.
fn mask_of(plan: &LayoutPlan, tag: &[u8; 4]) -> u32 {
    plan.mask(Tag::from_bytes(tag))
}

/// Whether features have these masks.
fn has_masks(plan: &LayoutPlan, masks: &[(&[u8; 4], u32)]) -> bool {
    for (tag, mask) in masks {
        if mask_of(plan, tag) != *mask {
            return false;
        }
    }
    true
}

/// Whether the plan of a row has what the row says.
fn is_met(row: &Row) -> Result<bool, AllocError> {
    let plan = planned(row.languages, row.substitutions, row.asks)?;
    Ok(plan.features.len() == row.count
        && plan.global_mask == row.global_mask
        && has_masks(&plan, row.masks)
        && has_lookups(&plan, row.lookups))
}

#[test]
fn features_are_planned() -> Result<(), Fail> {
    for row in &ROWS {
        assert!(is_met(row)?, "{}", row.name);
    }
    Ok(())
}

/// The mask of a feature's value 1, whether there is the feature, and whether a fallback has to make
/// it.
fn told(plan: &LayoutPlan, tag: &[u8; 4]) -> (u32, bool, bool) {
    let tag = Tag::from_bytes(tag);
    let is_there = plan.feature(tag).is_some();
    (plan.one_mask(tag), is_there, plan.needs_fallback(tag))
}

/// What the plan of what is asked for tells of a feature.
fn told_of(asks: &[Ask], tag: &[u8; 4]) -> Result<(u32, bool, bool), AllocError> {
    let plan = planned(&[], &[], asks)?;
    Ok(told(&plan, tag))
}

#[test]
fn plans_tell_of_features() -> Result<(), AllocError> {
    assert_eq!(told_of(ASKED, b"frac")?, (0x10, true, false));
    assert_eq!(told_of(ASKED, b"abcd")?, (0, false, false));
    assert_eq!(told_of(FALLBACK, b"kern")?, (0x10, true, true));
    Ok(())
}

/// The scripts that a plan chooses of `GSUB` and of `GPOS`.
fn scripts_of() -> Result<(Tag, Tag), AllocError> {
    let plan = planned(&[], &[], ASKED)?;
    Ok((plan.gsub_script, plan.gpos_script))
}

#[test]
fn plans_have_scripts() -> Result<(), AllocError> {
    let (gsub, gpos) = scripts_of()?;
    assert_eq!(gsub, Tag::from_bytes(b"latn"));
    assert!(gpos.is_null());
    Ok(())
}

#[test]
fn builders_know_features() {
    let builder = builder(&[], &[]);
    assert!(builder.has_feature(Tag::from_bytes(b"smcp")));
}

/// Where the lookups of a feature's stage end, and which one stands first there.
fn stage_of(plan: &LayoutPlan, tag: &[u8; 4]) -> (usize, Option<u16>) {
    let places = plan.stage_places(Tag::from_bytes(tag));
    let end = places.end;
    let lookups = plan.gsub_lookups.as_slice().get(places).unwrap_or(&[]);
    match lookups.first() {
        Some(first) => (end, Some(first.index)),
        None => (end, None),
    }
}

/// Where the lookups of two stages end, and what is done after each.
fn stages_of(plan: &LayoutPlan) -> Option<[(usize, Pause); 2]> {
    match plan.stages.as_slice() {
        [first, second] => Some([(first.end, first.pause), (second.end, second.pause)]),
        _ => None,
    }
}

/// The stages of a plan, and those of the features `frac`, `liga` and `smcp`.
type Stages = (Option<[(usize, Pause); 2]>, [(usize, Option<u16>); 3]);

/// The stages of a plan of two stages.
fn two_stages() -> Result<Stages, AllocError> {
    let plan = planned(&[], &[], STAGES)?;
    let places = [
        stage_of(&plan, b"frac"),
        stage_of(&plan, b"liga"),
        stage_of(&plan, b"smcp"),
    ];
    Ok((stages_of(&plan), places))
}

#[test]
fn stages_part_lookups() -> Result<(), AllocError> {
    let (stages, places) = two_stages()?;
    assert_eq!(
        stages,
        Some([(1, Pause::SetUpSyllables), (2, Pause::Nothing)])
    );
    assert_eq!(places, [(1, Some(2)), (2, Some(1)), (0, None)]);
    Ok(())
}

/// A font with this table `GSUB`, and no other.
fn font_with(gsub: &[u8]) -> Vec<u8> {
    let mut font = vec![0, 1, 0, 0, 0, 1, 0, 0, 0, 0, 0, 0];
    font.extend_from_slice(b"GSUB\0\0\0\0\0\0\0\x1C");
    font.extend_from_slice(&[0, 0, 0, gsub.len() as u8]);
    font.extend_from_slice(gsub);
    font
}

/// The plan for a text of a script with features, over a font with the table in which the script has the rules of `latn`.
fn plan_for(script: Script, tag: &[u8; 4], features: &[Feature]) -> Result<ShapePlan, Fail> {
    let mut table = TABLE.to_vec();
    table[18..22].copy_from_slice(tag);
    let font = font_with(&table);
    let face = Face::parse_if_there(&font, 0)?.ok_or("no font")?;
    let to_right = Direction::LeftToRight;
    Ok(ShapePlan::new(
        &face,
        to_right,
        Some(script),
        None,
        features,
    )?)
}

/// A script's shaper has rules for marks, as that of Hangul, which has features beside a user's.
#[test]
fn a_shaper_has_features_and_rules() -> Result<(), Fail> {
    let small_capitals = Tag::from_bytes(b"smcp");
    let feature = Feature::new(small_capitals, 1, Bound::Unbounded, Bound::Unbounded);
    let plan = plan_for(script::HANGUL, b"hang", &[feature])?;
    let plan = &text_plan(&plan).shape;
    assert!(has_lookups(
        &plan.layout,
        &[(0, 0x8000_0000), (1, 0x8000_0000), (2, 0x10)]
    ));
    assert!(plan.has_frac);
    assert!(plan.apply_fallback_kern);
    assert!(!plan.zero_marks);
    assert!(!plan.fallback_mark_positioning);
    Ok(())
}

/// What the default shaper asks for, and what follows for a font without `GPOS` and `kern`.
#[test]
fn the_default_shaper_plans() -> Result<(), Fail> {
    let small_capitals = Tag::from_bytes(b"smcp");
    let feature = Feature::new(small_capitals, 1, Bound::Included(1), Bound::Excluded(3));
    let plan = plan_for(script::LATIN, b"latn", &[feature])?;
    let plan = &text_plan(&plan).shape;
    assert!(plan.has_frac);
    assert_eq!(plan.frac_mask, 0x10);
    assert_eq!(plan.kern_mask, 0x8000_0000);
    assert!(plan.requested_kerning);
    assert!(plan.apply_fallback_kern);
    assert!(!plan.apply_gpos);
    assert!(!plan.apply_kern);
    assert!(!plan.has_gpos_mark);
    assert!(!plan.has_vert);
    assert!(plan.zero_marks);
    assert!(plan.fallback_mark_positioning);
    assert_eq!(plan.layout.stages.len(), 2);
    assert!(has_lookups(
        &plan.layout,
        &[(0, 0x20), (1, 0x8000_0020), (2, 0x10)]
    ));
    Ok(())
}
