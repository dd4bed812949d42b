use crate::glyphs::lists::{assert_clusters, glyphs};
use vukhaso::internals::glyph::GlyphPosition;
use vukhaso::internals::glyph_lists::reversal::reverse;

#[test]
fn positions_are_put_into_reverse_order() {
    let mut positions = [10, 20, 30].map(|advance| GlyphPosition {
        x_advance: advance,
        y_advance: 0,
        x_offset: advance,
        y_offset: 0,
        var: 7,
    });
    reverse(&mut positions);
    for (position, want) in positions.iter().zip([30, 20, 10]) {
        assert!(position.x_advance == want, "{want}");
        assert!(position.x_offset == want, "{want}");
        assert!(position.var == 7, "{want}");
    }
}

#[test]
fn glyphs_are_put_into_reverse_order() {
    let mut even = glyphs([1, 2, 3, 4]);
    reverse(&mut even);
    assert_clusters(&even, &[4, 3, 2, 1]);
    let mut odd = glyphs([1, 2, 3]);
    reverse(&mut odd);
    assert_clusters(&odd, &[3, 2, 1]);
}
