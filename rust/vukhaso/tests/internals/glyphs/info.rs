use vukhaso::internals::glyph::{GlyphInfo, glyph_flag, hb_glyph_info_t};
use vukhaso::internals::text::GlyphId;

#[test]
fn properties_share_words() {
    let mut info = GlyphInfo::default();
    info.set_glyph_props(0x1234);
    info.set_lig_props(0x56);
    info.set_syllable(0x78);
    assert!(info.glyph_index() == 0x7856_1234);
    assert!(info.glyph_props() == 0x1234);
    assert!(info.lig_props() == 0x56);
    assert!(info.syllable() == 0x78);
    info.set_glyph_index(0xFFFF_FFFF);
    assert!(info.var1 == 0xFFFF_FFFF);
    info.var2 = 0xABCD_0000;
    info.set_unicode_props(0xEC);
    assert!(info.unicode_props() == 0xEC);
    info.unhide();
    assert!(info.var2 == 0xABCD_00AC);
}

#[test]
fn an_item_is_a_character_or_a_glyph() {
    let info = hb_glyph_info_t {
        glyph_id: 'z' as u32,
        mask: glyph_flag::UNSAFE_TO_BREAK,
        ..hb_glyph_info_t::default()
    };
    assert!(info.as_char() == 'z');
    assert!(info.as_glyph() == GlyphId(122));
    assert!(info.unsafe_to_break());
}
