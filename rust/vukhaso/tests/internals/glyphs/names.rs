use crate::buffer_tests::probes::traits::{Five, measures_of};
use vukhaso::internals::glyph::NoGlyphNames;
use vukhaso::internals::text::GlyphId;

#[test]
fn a_font_answers_through_its_bound() {
    assert!(measures_of(&Five, GlyphId(5)) == (4, 3));
    assert!(measures_of(&Five, GlyphId(6)) == (0, 0));
    assert!(measures_of(&NoGlyphNames, GlyphId(5)) == (0, 0));
}
