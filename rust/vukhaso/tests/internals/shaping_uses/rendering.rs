// Written by tools/plain_rust from crates/shaping_uses. Do not edit.

//! A text from end to end: its characters, one feature, a list of calls, and glyphs with positions.

use vukhaso::internals::buffer::{Feature, GlyphBuffer};
use vukhaso::internals::runs::{Answer, Call, RenderFault, render};

/// Renders a text with a feature, and with a ligature in place of its first two glyphs, and answers
/// each of the three calls: `Outside` for the second where there are no two glyphs.
///
/// # Errors
///
/// None is refused, and none asks for memory. So `Err` is `Length` where the text is longer than a
/// buffer may be, or `Memory { at: None }` where there was no memory for it.
///
/// # Proved
///
/// ```text
/// ensures { MatchResult result
///     (λ rendered. (rendered.0 ≡ with_ligature text.now feature ligature)
///     × (rendered.1 ≡ answers_of (ligature_calls ligature) (featured text.now feature)))
///     (λ fault. FailsOnText fault MonotoneGraphemes text.now) }
/// ```
#[inline]
pub fn render_with_ligature(
    text: &str,
    feature: Feature,
    ligature: u32,
) -> Result<(GlyphBuffer, [Answer; 3]), RenderFault> {
    let mut answers = [Answer::Outside; 3];
    let ids = [ligature];
    let calls = [
        Call::ClearOutput,
        Call::ReplaceGlyphs(2, 1, &ids),
        Call::Sync,
    ];
    let glyphs = render(text, &[feature], &calls, &mut answers)?;
    Ok((glyphs, answers))
}
