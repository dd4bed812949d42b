//! Plans that are made for texts, and kept.

use crate::Fail;
use crate::shapers::upright::upright;
use std::ops::Bound;
use vukhaso::internals::buffer::{
    BufferFlags, Direction, Feature, GlyphBuffer, Language, SerializeFlags, UnicodeBuffer,
};
use vukhaso::internals::common::{Tag, script};
use vukhaso::internals::ot_shape::{
    Face, FaceNames, KeptPlans, ShapeError, ShapePlan, Unwatched, shape_with_kept_plans,
    shape_with_plan, shape_with_plan_watched,
};
use vukhaso::memory::{AllocError, String};

/// A text with a direction.
fn text_of(text: &str, direction: Direction) -> Result<UnicodeBuffer, AllocError> {
    let mut buffer = UnicodeBuffer::new();
    let _ = buffer.push_str(text)?;
    buffer.set_direction(direction);
    Ok(buffer)
}

/// A plan for Latin texts that run to the right.
fn plan_of(
    face: &Face,
    language: Option<&Language>,
    features: &[Feature],
) -> Result<ShapePlan, AllocError> {
    let latin = Some(script::LATIN);
    ShapePlan::new(face, Direction::LeftToRight, latin, language, features)
}

/// The feature `vert`, which puts b in the place of a, in one cluster.
fn upright_in(cluster: usize) -> Feature {
    let (start, end) = (
        Bound::Included(cluster),
        Bound::Included(cluster.saturating_add(1)),
    );
    Feature::new(Tag::from_bytes(b"vert"), 1, start, end)
}

/// Glyphs in a line.
fn line_of(face: &Face, glyphs: &GlyphBuffer) -> Result<String, AllocError> {
    let names = FaceNames::new(face)?;
    glyphs.serialize(&names, SerializeFlags::empty())
}

/// The glyphs of a text by a plan, in a line.
fn shaped(
    face: &Face,
    plan: &ShapePlan,
    text: &str,
    direction: Direction,
) -> Result<String, ShapeError> {
    let text = text_of(text, direction)?;
    let glyphs = shape_with_plan(face, plan, text)?;
    Ok(line_of(face, &glyphs)?)
}

/// The glyphs of three letters by a plan and features, in a line.
fn watched(face: &Face, plan: &ShapePlan, features: &[Feature]) -> Result<String, ShapeError> {
    let text = text_of("aaa", Direction::LeftToRight)?;
    let glyphs = shape_with_plan_watched(face, plan, features, text, &mut Unwatched)?;
    Ok(line_of(face, &glyphs)?)
}

/// Whether a plan is for a text of no features whose script and language are guessed.
fn is_for(face: &Face, plan: &ShapePlan, text: &str) -> Result<bool, AllocError> {
    let mut text = text_of(text, Direction::LeftToRight)?;
    text.guess_segment_properties();
    Ok(plan.is_for(face, &[], &text))
}

/// Asserts what glyphs there are.
fn assert_glyphs(found: Result<String, ShapeError>, wanted: &str) {
    match found {
        Ok(line) => assert_eq!(line.as_str(), wanted, "{line} and not {wanted}"),
        Err(error) => panic!("{error} and not {wanted}"),
    }
}

/// Asserts that a text was not shaped, since the plan is for others.
fn assert_is_refused(found: Result<String, ShapeError>) {
    assert_eq!(found.err(), Some(ShapeError::OtherPlan));
}

/// A plan shapes the texts that it is for, and no others.
#[test]
fn a_plan_is_for_its_texts() -> Result<(), Fail> {
    let right = Direction::LeftToRight;
    let face = upright()?;
    let plan = plan_of(&face, None, &[])?;
    assert_eq!(plan.direction(), right);
    assert_eq!(plan.script(), Some(script::LATIN));
    assert_eq!(is_for(&face, &plan, "ab"), Ok(true));
    assert_glyphs(shaped(&face, &plan, "ab", right), "a=0+410|b=1+420");
    assert_is_refused(shaped(&face, &plan, "ab", Direction::RightToLeft));
    Ok(())
}

/// A plan for texts in a language is for no texts in none.
#[test]
fn a_plan_is_for_its_language() -> Result<(), Fail> {
    let face = upright()?;
    let turkish = Language::from_str("tr")?;
    let plan = plan_of(&face, Some(&turkish), &[])?;
    assert_eq!(is_for(&face, &plan, "ab"), Ok(false));
    Ok(())
}

/// A feature of a part of the text reaches it by a plan, also where the plan was made for another part.
#[test]
fn a_plan_has_features_of_a_part() -> Result<(), Fail> {
    let (second, third) = ([upright_in(1)], [upright_in(2)]);
    let face = upright()?;
    let plan = plan_of(&face, None, &second)?;
    assert_eq!(plan.features(), second.as_slice());
    let own = shaped(&face, &plan, "aaa", Direction::LeftToRight);
    assert_glyphs(own, "a=0+410|b=1+420|a=2+410");
    let other = watched(&face, &plan, &third);
    assert_glyphs(other, "a=0+410|a=1+410|b=2+420");
    assert_is_refused(watched(&face, &plan, &[]));
    Ok(())
}

/// A plan is for one place in the variations of a font.
#[test]
fn a_plan_is_for_its_coordinates() -> Result<(), Fail> {
    let mut face = upright()?;
    let plan = plan_of(&face, None, &[])?;
    face.variations.coordinates.push(1)?;
    assert_is_refused(shaped(&face, &plan, "a", Direction::LeftToRight));
    Ok(())
}

/// The glyphs of a text by plans that are kept, in a line.
fn shaped_by_kept(
    face: &Face,
    kept: &mut KeptPlans,
    features: &[Feature],
    text: UnicodeBuffer,
) -> Result<String, ShapeError> {
    let glyphs = shape_with_kept_plans(face, features, kept, text)?;
    Ok(line_of(face, &glyphs)?)
}

/// The glyphs of `aa` by plans that are kept, where a feature is on in one cluster.
fn part_by_kept(face: &Face, kept: &mut KeptPlans, cluster: usize) -> Result<String, ShapeError> {
    let text = text_of("aa", Direction::LeftToRight)?;
    shaped_by_kept(face, kept, &[upright_in(cluster)], text)
}

/// Features of parts of a text, one after the other, and the glyphs of `aa`.
static PARTS: [(usize, &str); 3] = [
    (0, "b=0+420|a=1+410"),
    (1, "a=0+410|b=1+420"),
    (2, "a=0+410|a=1+410"),
];

/// A plan that is kept serves the same features in other parts of a text.
#[test]
fn a_kept_plan_has_features_of_parts() -> Result<(), Fail> {
    let face = upright()?;
    let mut kept = KeptPlans::new();
    for (cluster, wanted) in &PARTS {
        let found = part_by_kept(&face, &mut kept, *cluster);
        assert_glyphs(found, wanted);
    }
    Ok(())
}

/// A text, its direction, and its glyphs.
type Row = (&'static str, Direction, &'static str);

/// The glyphs of a row by plans that are kept.
fn row_by_kept(
    face: &Face,
    kept: &mut KeptPlans,
    row: &Row,
    flags: BufferFlags,
) -> Result<String, ShapeError> {
    let (characters, direction, _) = row;
    let mut text = text_of(characters, *direction)?;
    text.set_flags(flags);
    shaped_by_kept(face, kept, &[], text)
}

/// Texts in all directions, one after the other, and their glyphs.
static TEXTS: [Row; 6] = [
    ("ab", Direction::LeftToRight, "a=0+410|b=1+420"),
    ("b", Direction::LeftToRight, "b=0+420"),
    ("ab", Direction::RightToLeft, "b=1+420|a=0+410"),
    (
        "bc",
        Direction::TopToBottom,
        "b=0@-210,-880+0,-1000|c=1@-215,-850+0,-1000",
    ),
    (
        "bc",
        Direction::BottomToTop,
        "c=1@-215,-850+0,-1000|b=0@-210,-880+0,-1000",
    ),
    ("c", Direction::LeftToRight, "c=0+430"),
];

/// A plan that is kept gives way to another where the next text is another, and a text is verified by
/// it too.
#[test]
fn a_kept_plan_gives_way() -> Result<(), Fail> {
    let face = upright()?;
    let mut kept = KeptPlans::new();
    for row in &TEXTS {
        let plain = row_by_kept(&face, &mut kept, row, BufferFlags::empty());
        assert_glyphs(plain, row.2);
        let verified = row_by_kept(&face, &mut kept, row, BufferFlags::VERIFY);
        assert_glyphs(verified, row.2);
    }
    Ok(())
}
