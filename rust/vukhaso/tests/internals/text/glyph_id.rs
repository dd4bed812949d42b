use vukhaso::internals::text::{GlyphId, hb_codepoint_t};

#[test]
fn a_glyph_id_is_its_number() {
    let notdef: GlyphId = GlyphId(0);
    let letter: hb_codepoint_t = 'a';
    assert!(notdef.0 == 0);
    assert!(notdef != GlyphId(1));
    assert!(letter == 'a');
}
