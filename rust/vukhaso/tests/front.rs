//! A program of rustybuzz's users, in which the name of the crate alone is changed.

use std::str::FromStr;
use vukhaso::rustybuzz;

const FONT: &[u8] = include_bytes!("../../../fonts/letters.ttf");
const APPLE: &[u8] = include_bytes!("../../../fonts/apple.ttf");

#[test]
fn a_text_is_shaped() {
    let face = rustybuzz::Face::from_slice(FONT, 0).unwrap();
    let mut buffer = rustybuzz::UnicodeBuffer::new();
    buffer.push_str("abc");
    buffer.set_direction(rustybuzz::Direction::LeftToRight);
    buffer.set_script(rustybuzz::script::LATIN);
    buffer.set_language(rustybuzz::Language::from_str("en").unwrap());
    let glyphs = rustybuzz::shape(&face, &[], buffer);
    assert_eq!(glyphs.len(), 3);
    let clusters: Vec<u32> = glyphs
        .glyph_infos()
        .iter()
        .map(|info| info.cluster)
        .collect();
    assert_eq!(clusters, [0, 1, 2]);
    let width: i32 = glyphs
        .glyph_positions()
        .iter()
        .map(|position| position.x_advance)
        .sum();
    assert!(width > 0);
    assert_eq!(
        glyphs
            .serialize(&face, rustybuzz::SerializeFlags::default())
            .split('|')
            .count(),
        3
    );
}

/// The glyphs of a word by a plan with a feature, and those that are shaped at once with it.
fn planned_and_shaped(font: &[u8], feature: &str, word: &str) -> [String; 2] {
    let face = rustybuzz::Face::from_slice(font, 0).unwrap();
    let features = [rustybuzz::Feature::from_str(feature).unwrap()];
    let text = || {
        let mut buffer = rustybuzz::UnicodeBuffer::new();
        buffer.push_str(word);
        buffer.guess_segment_properties();
        buffer
    };
    let (direction, script) = (text().direction(), text().script());
    let plan = rustybuzz::ShapePlan::new(&face, direction, Some(script), None, &features);
    let flags = rustybuzz::SerializeFlags::default();
    let planned = rustybuzz::shape_with_plan(&face, &plan, text()).serialize(&face, flags);
    [
        planned,
        rustybuzz::shape(&face, &features, text()).serialize(&face, flags),
    ]
}

#[test]
fn a_plan_has_features_of_apple() {
    let [planned, shaped] = planned_and_shaped(APPLE, "smcp", "fik");
    assert_eq!(planned, shaped);
    assert_eq!(planned, "L=0+720|K=2+710|J=2+700");
}

#[test]
fn a_plan_has_features_of_a_part() {
    let [planned, shaped] = planned_and_shaped(FONT, "sin1[1:2]", "aaa");
    assert_eq!(planned, shaped);
    assert_eq!(planned, "a=0+410|b=1+420|a=2+410");
}

#[test]
fn a_plan_is_kept() {
    let face = rustybuzz::Face::from_slice(FONT, 0).unwrap();
    let features = [rustybuzz::Feature::from_str("-liga").unwrap()];
    let direction = rustybuzz::Direction::LeftToRight;
    let plan = rustybuzz::ShapePlan::new(
        &face,
        direction,
        Some(rustybuzz::script::LATIN),
        None,
        &features,
    );
    let mut buffer = rustybuzz::UnicodeBuffer::new();
    for word in ["office", "fi", "abc"] {
        buffer.push_str(word);
        buffer.guess_segment_properties();
        let planned = rustybuzz::shape_with_plan(&face, &plan, buffer);
        let mut again = rustybuzz::UnicodeBuffer::new();
        again.push_str(word);
        let shaped = rustybuzz::shape(&face, &features, again);
        let flags = rustybuzz::SerializeFlags::default();
        assert_eq!(
            planned.serialize(&face, flags),
            shaped.serialize(&face, flags)
        );
        buffer = planned.clear();
    }
}

#[test]
#[should_panic(expected = "the plan is for other texts")]
fn a_plan_is_not_for_other_texts() {
    let face = rustybuzz::Face::from_slice(FONT, 0).unwrap();
    let direction = rustybuzz::Direction::LeftToRight;
    let plan =
        rustybuzz::ShapePlan::new(&face, direction, Some(rustybuzz::script::GREEK), None, &[]);
    let mut buffer = rustybuzz::UnicodeBuffer::new();
    buffer.push_str("abc");
    rustybuzz::shape_with_plan(&face, &plan, buffer);
}

/// The numbers of lookups of `GSUB` and `GPOS` are those that HarfBuzz tells of the same plan.
#[test]
fn a_plan_tells_its_lookups() {
    let face = vukhaso::Face::from_slice(FONT, 0).unwrap();
    let script = vukhaso::script::LATIN;
    let direction = vukhaso::Direction::LeftToRight;
    let plan = vukhaso::ShapePlan::new(&face, direction, Some(script), None, &[]).unwrap();
    assert_eq!(plan.lookups(), (vec![7, 23, 24], vec![3, 8, 9, 10]));
}

/// A font that changes its mind: whether a character has a glyph too, and each measure, is otherwise each time.
struct Fickle(std::cell::Cell<i32>);

impl Fickle {
    fn number(&self) -> i32 {
        let number = self.0.get().wrapping_mul(1664525).wrapping_add(1013904223);
        self.0.set(number);
        number
    }
}

impl vukhaso::FontFunctions for Fickle {
    fn nominal_glyph(&self, _character: u32) -> Option<vukhaso::GlyphId> {
        let number = self.number();
        (number < 0).then_some(vukhaso::GlyphId((number >> 8) as u16))
    }

    fn variation_glyph(&self, character: u32, _selector: u32) -> Option<vukhaso::GlyphId> {
        self.nominal_glyph(character)
    }

    fn glyph_h_advance(&self, _glyph: vukhaso::GlyphId) -> i32 {
        self.number()
    }

    fn glyph_v_advance(&self, _glyph: vukhaso::GlyphId) -> i32 {
        self.number()
    }

    fn glyph_v_origin(&self, _glyph: vukhaso::GlyphId) -> Result<(i32, i32), vukhaso::AllocError> {
        Ok((self.number(), self.number()))
    }

    fn glyph_extents(
        &self,
        _glyph: vukhaso::GlyphId,
    ) -> Result<Option<vukhaso::GlyphExtents>, vukhaso::AllocError> {
        Ok(None)
    }

    fn glyph_contour_point(&self, _glyph: vukhaso::GlyphId, point: u16) -> Option<(i32, i32)> {
        let number = self.number();
        (point % 2 == 0).then_some((number, self.number()))
    }
}

/// This is tested: what is proved is of fonts whose characters have glyphs or have none.
#[test]
fn functions_that_change_their_mind_are_no_harm() {
    let face = vukhaso::Face::from_slice(FONT, 0).unwrap();
    let font = Fickle(std::cell::Cell::new(1));
    let texts = [
        "ấ\u{327} b\u{2011}c",
        "لا\u{64e}م",
        "\u{1112}\u{1161}\u{11ab}한",
        "क्षि",
        "กำ",
        "❤\u{fe0f}",
    ];
    for text in texts.iter().cycle().take(600) {
        let mut buffer = vukhaso::UnicodeBuffer::new();
        assert!(buffer.push_str(text).unwrap());
        let glyphs = vukhaso::shape_with_functions(&face, &font, &[], buffer).unwrap();
        assert_eq!(glyphs.glyph_infos().len(), glyphs.glyph_positions().len());
        let is_cluster = |cluster: u32| text.is_char_boundary(cluster as usize);
        assert!(
            glyphs
                .glyph_infos()
                .iter()
                .all(|info| is_cluster(info.cluster))
        );
    }
}
