//! The features that shapers ask for, and what those of a font make of a shaper (OpenType, "Developing OpenType Fonts for Arabic
//! Script" and "for Hangul Script").

use crate::Fail;
use vukhaso::internals::common::{Script, Tag, script};
use vukhaso::internals::ot_map::builder::ChosenTable;
use vukhaso::internals::ot_map::{FeatureFlags, Pause, PlanBuilder};
use vukhaso::internals::script_shapers::{
    ScriptPlan, ScriptShaper, collect_features, override_features, script_plan,
};
use vukhaso::memory::AllocError;

/// A table `GSUB` whose script `DFLT` has one feature, of the tag at the places 32 to 35, with the table's one lookup.
const TABLE: [u8; 54] = [
    0, 1, 0, 0, 0, 10, 0, 30, 0, 44, 0, 1, 68, 70, 76, 84, 0, 8, 0, 4, 0, 0, 0, 0, 255, 255, 0, 1,
    0, 0, 0, 1, 0, 0, 0, 0, 0, 8, 0, 0, 0, 1, 0, 0, 0, 1, 0, 4, 0, 1, 0, 0, 0, 0,
];

/// The table, in which its feature has this tag.
fn table_of(feature: [u8; 4]) -> [u8; 54] {
    let mut table = TABLE;
    for (byte, letter) in table.iter_mut().skip(32).zip(feature) {
        *byte = letter;
    }
    table
}

/// No features yet, for a font with this table.
fn builder(gsub: &[u8]) -> PlanBuilder<'_> {
    let gsub = ChosenTable::new(gsub, &[], &[]);
    PlanBuilder::new(gsub, ChosenTable::new(&[], &[], &[]))
}

/// The stage in which a feature is asked for.
fn stage_of(builder: &PlanBuilder<'_>, name: &[u8; 4]) -> Option<usize> {
    let tag = Tag::from_bytes(name);
    for request in builder.requests.iter() {
        if request.tag == tag {
            return Some(request.stage);
        }
    }
    None
}

/// The features that a shaper asks for.
fn asked(
    shaper: ScriptShaper,
    script: Option<Script>,
    gsub: &[u8],
) -> Result<PlanBuilder<'_>, AllocError> {
    let mut builder = builder(gsub);
    collect_features(shaper, &mut builder, script)?;
    Ok(builder)
}

/// The plan of a shaper for a font that has one feature, or none where the table is empty.
fn plan_for(shaper: ScriptShaper, script: Script, gsub: &[u8]) -> Result<ScriptPlan, AllocError> {
    let mut builder = asked(shaper, Some(script), gsub)?;
    override_features(shaper, &mut builder)?;
    let layout = builder.compile()?;
    Ok(script_plan(shaper, Some(script), &layout, false))
}

/// A feature, and the stage in which it is asked for.
type Stage = (&'static [u8; 4], usize);

/// Asserts the stages of features.
fn assert_stages(builder: &PlanBuilder<'_>, stages: &[Stage]) {
    for (name, stage) in stages {
        assert_eq!(stage_of(builder, name), Some(*stage), "{stage}");
    }
}

static ARABIC: [Stage; 15] = [
    (b"stch", 0),
    (b"ccmp", 1),
    (b"locl", 1),
    (b"isol", 2),
    (b"fina", 3),
    (b"fin2", 4),
    (b"fin3", 5),
    (b"medi", 6),
    (b"med2", 7),
    (b"init", 8),
    (b"rlig", 9),
    (b"calt", 10),
    (b"liga", 11),
    (b"clig", 11),
    (b"mset", 11),
];

static PAUSES_OF_ARABIC: [Pause; 11] = [
    Pause::RecordStch,
    Pause::Nothing,
    Pause::Nothing,
    Pause::Nothing,
    Pause::Nothing,
    Pause::Nothing,
    Pause::Nothing,
    Pause::Nothing,
    Pause::Nothing,
    Pause::ArabicFallback,
    Pause::Nothing,
];

/// Arabic asks for each form in a stage of its own, for ligatures behind them, and may make forms in
/// the fallback's place.
#[test]
fn stages_of_arabic() -> Result<(), Fail> {
    let arabic = Some(script::ARABIC);
    let builder = asked(ScriptShaper::Arabic, arabic, &[])?;
    assert_stages(&builder, &ARABIC);
    assert_eq!(builder.requests.len(), 15);
    assert_eq!(builder.pauses.as_slice(), PAUSES_OF_ARABIC.as_slice());
    Ok(())
}

/// Syriac has no fallback, and no pause behind `calt` where the font has contextual forms that it
/// requires.
#[test]
fn stages_of_syriac() -> Result<(), Fail> {
    let table = table_of(*b"rclt");
    let syriac = Some(script::SYRIAC);
    let builder = asked(ScriptShaper::Arabic, syriac, &table)?;
    assert_eq!(builder.pauses.len(), 9);
    assert!(!builder.pauses.contains(&Pause::ArabicFallback));
    assert_stages(&builder, &[(b"calt", 9), (b"liga", 9)]);
    Ok(())
}

/// Hangul has three features for the jamo.
#[test]
fn stages_of_hangul() -> Result<(), Fail> {
    let hangul = Some(script::HANGUL);
    let builder = asked(ScriptShaper::Hangul, hangul, &[])?;
    assert_stages(&builder, &[(b"ljmo", 0), (b"vjmo", 0), (b"tjmo", 0)]);
    Ok(())
}

/// Whether a plan of Hangul has the contextual alternates that were asked for.
fn hangul_has_alternates(gsub: &[u8]) -> Result<bool, AllocError> {
    let alternates = Tag::from_bytes(b"calt");
    let mut builder = builder(gsub);
    builder.enable_feature(alternates, FeatureFlags::NONE)?;
    collect_features(ScriptShaper::Hangul, &mut builder, Some(script::HANGUL))?;
    override_features(ScriptShaper::Hangul, &mut builder)?;
    let layout = builder.compile()?;
    Ok(layout.feature(alternates).is_some())
}

/// Hangul has no contextual alternates, though they were asked for.
#[test]
fn hangul_has_no_alternates() {
    let table = table_of(*b"calt");
    assert_eq!(hangul_has_alternates(&table), Ok(false));
}

/// Hebrew asks for nothing.
#[test]
fn stages_of_hebrew() -> Result<(), Fail> {
    let table = table_of(*b"calt");
    let hebrew = Some(script::HEBREW);
    let mut builder = asked(ScriptShaper::Hebrew, hebrew, &table)?;
    override_features(ScriptShaper::Hebrew, &mut builder)?;
    assert!(builder.requests.is_empty());
    assert!(builder.pauses.is_empty());
    Ok(())
}

static SYLLABIC: [(ScriptShaper, &[u8; 4], usize); 16] = [
    (ScriptShaper::Indic, b"locl", 1),
    (ScriptShaper::Indic, b"nukt", 2),
    (ScriptShaper::Indic, b"rphf", 4),
    (ScriptShaper::Indic, b"cjct", 12),
    (ScriptShaper::Indic, b"init", 14),
    (ScriptShaper::Khmer, b"pref", 2),
    (ScriptShaper::Khmer, b"pres", 3),
    (ScriptShaper::Myanmar, b"rphf", 2),
    (ScriptShaper::Myanmar, b"pstf", 5),
    (ScriptShaper::Myanmar, b"pres", 7),
    (ScriptShaper::Universal, b"akhn", 1),
    (ScriptShaper::Universal, b"rphf", 2),
    (ScriptShaper::Universal, b"pref", 4),
    (ScriptShaper::Universal, b"half", 5),
    (ScriptShaper::Universal, b"isol", 7),
    (ScriptShaper::UniversalJoining, b"abvs", 8),
];

/// The stage in which a shaper asks for a feature.
fn stage_asked(shaper: ScriptShaper, name: &[u8; 4]) -> Result<Option<usize>, AllocError> {
    let builder = asked(shaper, None, &[])?;
    Ok(stage_of(&builder, name))
}

/// Shapers of syllables put them in order before the basic features, the universal one behind those,
/// and forget them before the last ones, Indic scripts only behind the features of a user.
#[test]
fn stages_of_syllables() {
    for (shaper, name, stage) in &SYLLABIC {
        let found = stage_asked(*shaper, name);
        assert_eq!(found, Ok(Some(*stage)), "{shaper:?}");
    }
}

/// A font with no forms for Arabic has the fallback, with a mask for each form of Arabic.
#[test]
fn plans_of_arabic_with_a_fallback() -> Result<(), Fail> {
    let plain = plan_for(ScriptShaper::Arabic, script::ARABIC, &[])?;
    assert!(plain.does_fallback);
    assert!(!plain.has_stch);
    assert_ne!(plain.rlig_mask, 0);
    let [none, isol, fina, fin2, fin3, medi, med2, init] = plain.masks;
    assert_ne!(isol, 0);
    assert_ne!(fina, 0);
    assert_ne!(medi, 0);
    assert_ne!(init, 0);
    assert_eq!(isol & fina, 0);
    assert_eq!(medi & init, 0);
    assert_eq!(fina & medi, 0);
    assert_eq!([none, fin2, fin3, med2], [0; 4]);
    Ok(())
}

/// A font with a form has no fallback.
#[test]
fn plans_of_arabic_with_forms() -> Result<(), Fail> {
    let table = table_of(*b"init");
    let formed = plan_for(ScriptShaper::Arabic, script::ARABIC, &table)?;
    assert!(!formed.does_fallback);
    assert_ne!(formed.masks[7], 0);
    Ok(())
}

/// Syriac has no fallback.
#[test]
fn plans_of_syriac() -> Result<(), Fail> {
    let syriac = plan_for(ScriptShaper::Arabic, script::SYRIAC, &[])?;
    assert!(!syriac.does_fallback);
    assert_eq!(syriac.masks, [0; 8]);
    let table = table_of(*b"stch");
    let stretched = plan_for(ScriptShaper::Arabic, script::SYRIAC, &table)?;
    assert!(stretched.has_stch);
    Ok(())
}

/// Of Hangul a jamo has the mask of the font's feature for it.
#[test]
fn plans_of_hangul() -> Result<(), Fail> {
    let table = table_of(*b"vjmo");
    let hangul = plan_for(ScriptShaper::Hangul, script::HANGUL, &table)?;
    assert_eq!(hangul.masks[1], 0);
    assert_ne!(hangul.masks[2], 0);
    assert_eq!(hangul.masks[3], 0);
    Ok(())
}

/// Thai without a script in the font has glyphs of the private use area.
#[test]
fn plans_of_thai() -> Result<(), Fail> {
    let thai = plan_for(ScriptShaper::Thai, script::THAI, &[])?;
    assert!(thai.has_private_use);
    let lao = plan_for(ScriptShaper::Thai, script::LAO, &[])?;
    assert!(!lao.has_private_use);
    Ok(())
}
