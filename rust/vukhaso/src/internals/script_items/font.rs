// Written by tools/plain_rust from crates/script_items. Do not edit.

//! What a shaper asks of a font.

/// A font, as far as the shapers of scripts ask it.
///
/// # Proved
///
/// ```text
/// ghost has: { Self → ℕ → Bool }
/// ```
pub trait FontGlyphs {
    /// Whether the font has a glyph for the character.
    ///
    /// # Proved
    ///
    /// ```text
    /// ensures { result ≡ has self.now character }
    /// ```
    fn has_glyph(&self, character: u32) -> bool;

    /// The glyph of the character; `None` where the font has none.
    ///
    /// # Proved
    ///
    /// That it returns.
    fn glyph_of(&self, character: u32) -> Option<u16>;

    /// How far the line goes on behind the glyph, in horizontal lines, at the font's scale.
    ///
    /// # Proved
    ///
    /// That it returns.
    fn horizontal_advance(&self, glyph: u32) -> i32;

    /// Whether the font's scale across is negative, so that glyphs are mirrored and widths are negative.
    ///
    /// # Proved
    ///
    /// That it returns.
    fn is_mirrored(&self) -> bool;
}

/// Whether the font has a glyph without width for the character.
///
/// # Proved
///
/// That it returns.
#[inline]
pub fn has_no_width<F: FontGlyphs>(font: &F, character: u32) -> bool {
    match font.glyph_of(character) {
        Some(glyph) => font.horizontal_advance(u32::from(glyph)) == 0,
        None => false,
    }
}
