use vukhaso::internals::buffer::{BufferClusterLevel, Feature, GlyphBuffer, GlyphInfo, Tag};
use vukhaso::internals::runs::{Answer, Call, RenderFault, render, render_at};

fn kern(value: u32, start: u32, end: u32) -> Feature {
    Feature {
        tag: Tag(0x6B65_726E),
        value,
        start,
        end,
    }
}

fn assert_masks(glyphs: &GlyphBuffer, want: &[u32]) {
    assert!(glyphs.len() == want.len());
    for (glyph, want) in glyphs.glyph_infos().iter().zip(want) {
        assert!(glyph.mask == *want, "{want}");
    }
    assert!(glyphs.glyph_positions().len() == want.len());
    for position in glyphs.glyph_positions() {
        assert!((position.x_advance, position.y_advance) == (0, 0));
        assert!((position.x_offset, position.y_offset) == (0, 0));
    }
}

/// Asserts the masks of the text "ab" rendered with features.
fn assert_masked(features: &[Feature], masks: &[u32]) {
    let mut answers = [Answer::Outside; 3];
    let calls = [Call::ClearOutput, Call::NextGlyph, Call::Sync];
    match render("ab", features, &calls, &mut answers) {
        Ok(glyphs) => assert_masks(&glyphs, masks),
        Err(_) => panic!("not rendered"),
    }
    assert!(answers == [Answer::Done; 3]);
}

#[test]
fn features_set_the_bits_of_their_places() {
    let all = u32::MAX;
    let off_then_on = [kern(0, 0, all), kern(5, 0, 1)];
    let on_and_off = [kern(1, 0, all), kern(0, 0, all), kern(7, 1, 9)];
    let rows: [(&[Feature], [u32; 2]); 5] = [
        (&[kern(1, 1, 2)], [0, 256]),
        (&[kern(0, 0, all)], [0, 0]),
        (&off_then_on, [512, 0]),
        (&on_and_off, [256, 1280]),
        (&[kern(1, 0, all); 24], [0xFFFF_FF00, 0xFFFF_FF00]),
    ];
    for (features, masks) in &rows {
        assert_masked(features, masks);
    }
}

const LEVELS: [BufferClusterLevel; 4] = [
    BufferClusterLevel::MonotoneGraphemes,
    BufferClusterLevel::MonotoneCharacters,
    BufferClusterLevel::Characters,
    BufferClusterLevel::Graphemes,
];

/// What a text with features is after one call, at a level or at none that is said, and the answer to
/// the call.
fn rendered(
    level: Option<BufferClusterLevel>,
    text: &str,
    features: &[Feature],
    call: Call<'_>,
) -> (Result<GlyphBuffer, RenderFault>, Answer) {
    let mut answers = [Answer::Outside];
    let glyphs = match level {
        Some(level) => render_at(level, text, features, &[call], &mut answers),
        None => render(text, features, &[call], &mut answers),
    };
    (glyphs, answers[0])
}

/// Asserts the clusters and the glyph flags of "abc" after a call.
fn assert_called(level: Option<BufferClusterLevel>, call: Call<'_>, want: &[(u32, u32)]) {
    let (rendered, answer) = rendered(level, "abc", &[], call);
    assert!(answer == Answer::Done);
    match rendered {
        Ok(glyphs) => assert_flagged(glyphs.glyph_infos(), want),
        Err(_) => panic!("not rendered"),
    }
}

fn assert_flagged(glyphs: &[GlyphInfo], want: &[(u32, u32)]) {
    assert!(glyphs.len() == want.len());
    for (glyph, want) in glyphs.iter().zip(want) {
        assert!((glyph.cluster, glyph.mask & 7) == *want, "{want:?}");
    }
}

#[test]
fn a_text_is_rendered_at_its_level() {
    let marked: &[(u32, u32)] = &[(0, 0), (1, 3), (2, 0)];
    let merged: &[(u32, u32)] = &[(0, 0), (0, 0), (2, 0)];
    // what `merge_clusters` leaves, and what `merge_grapheme_clusters` leaves
    let rows = [
        (merged, merged),
        (merged, marked),
        (marked, marked),
        (marked, merged),
    ];
    let (merge, merge_graphemes) = (Call::MergeClusters(0, 2), Call::MergeGraphemeClusters(0, 2));
    for (level, (clusters, graphemes)) in LEVELS.iter().zip(rows) {
        assert_called(Some(*level), merge, clusters);
        assert_called(Some(*level), merge_graphemes, graphemes);
    }
    assert_called(None, merge_graphemes, merged);
}

/// Asserts the fault of "ab" with features, whose output is opened and not closed, and the answer to
/// that call.
fn assert_fault(
    level: Option<BufferClusterLevel>,
    features: &[Feature],
    want: (RenderFault, Answer),
) {
    let (rendered, answer) = rendered(level, "ab", features, Call::ClearOutput);
    match rendered {
        Ok(_) => panic!("rendered"),
        Err(fault) => assert!((fault, answer) == want),
    }
}

fn assert_faults(level: Option<BufferClusterLevel>) {
    let left_open = (RenderFault::OutputLeftOpen, Answer::Done);
    assert_fault(level, &[], left_open);
    let too_many = (RenderFault::TooManyFeatures, Answer::Outside);
    assert_fault(level, &[kern(1, 0, 1); 25], too_many);
}

#[test]
fn faults_say_where() {
    assert_faults(None);
}

#[test]
fn faults_come_at_each_level() {
    for level in LEVELS {
        assert_faults(Some(level));
    }
}
