//! Tone marks of Hangul.

use crate::scripts::texts::{TestFont, assert_characters, buffer_of, plan_of};
use vukhaso::internals::buffer::hb_buffer_t;
use vukhaso::internals::script_shapers::ScriptShaper;

/// A font with jamo, syllables and tone marks, of which one has no width.
const FONT: TestFont = TestFont {
    first: 0x1100,
    last: 0xD7FB,
    without_width: 0x302F,
};

/// Characters and their clusters.
static WANTED: [(u32, u32); 6] = [
    (0xAC00, 0),
    (0x302F, 3),
    (0x302E, 6),
    (0x25CC, 6),
    (0x25CC, 9),
    (0x302F, 9),
];

/// The text as it is prepared for shaping.
fn prepared(text: &str) -> hb_buffer_t {
    let mut buffer = buffer_of(text);
    let done = plan_of(ScriptShaper::Hangul).preprocess_text(&mut buffer, &FONT);
    assert_eq!(done, Ok(true));
    buffer
}

/// A tone mark with no width stays behind its syllable, and without one behind the dotted circle that
/// it stands on.
#[test]
fn tone_marks_without_width() {
    let buffer = prepared("\u{ac00}\u{302f}\u{302e}\u{302f}");
    assert_characters(buffer.info(), &WANTED);
}
