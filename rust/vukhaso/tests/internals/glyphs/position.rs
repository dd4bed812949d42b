use vukhaso::internals::glyph::GlyphPosition;

#[test]
fn chain_and_type_share_a_word() {
    let mut position = GlyphPosition::default();
    position.set_attach_chain(-1);
    position.set_attach_type(2);
    assert!(position.var == 0x0002_FFFF);
    assert!(position.attach_chain() == -1);
    assert!(position.attach_type() == 2);
    assert!(position.x_advance == 0);
}
