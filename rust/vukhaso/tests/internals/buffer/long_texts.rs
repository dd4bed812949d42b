//! Texts of 200,000 bytes, and what they are when they are serialized, over two million bytes; and empty texts.

use crate::Fail;
use crate::buffer::lists::{long_text, push};
use vukhaso::internals::buffer::{
    GlyphBuffer, NoGlyphNames, SerializeFlags, UnicodeBuffer, hb_buffer_t,
};
use vukhaso::internals::runs::{Answer, Call, RenderFault, render};
use vukhaso::memory::String;

/// How many letters there are.
const COUNT: usize = 200_000;

/// The letters from a to j, over and over.
fn letters() -> Result<String, Fail> {
    Ok(long_text("abcdefghij", COUNT / 10)?)
}

#[test]
fn a_long_text_is_pushed() -> Result<(), Fail> {
    let text = letters()?;
    assert!(text.len() == COUNT);
    let mut characters = UnicodeBuffer::new();
    for _ in 0..2 {
        push(&mut characters, &text);
    }
    assert_last(characters.into_buffer());
    Ok(())
}

fn assert_last(buffer: hb_buffer_t) {
    assert!(buffer.info().len() == 2 * COUNT);
    let last = buffer
        .info()
        .last()
        .map(|glyph| (glyph.glyph_id, glyph.cluster));
    assert!(last == Some((106, 199_999)));
}

fn rendered(text: &str) -> Result<GlyphBuffer, RenderFault> {
    let calls = [Call::ClearOutput, Call::Sync];
    let mut answers = [Answer::Outside; 2];
    let glyphs = render(text, &[], &calls, &mut answers);
    assert!(answers == [Answer::Done; 2]);
    glyphs
}

/// The text of the glyphs by their numbers.
fn written(text: &str) -> Result<String, Fail> {
    match rendered(text) {
        Ok(glyphs) => Ok(glyphs.serialize(&NoGlyphNames, SerializeFlags::NO_GLYPH_NAMES)?),
        Err(_) => panic!("not rendered"),
    }
}

/// The lengths are those of the ids (27 digits of ten glyphs), of the clusters (as many digits as the
/// numbers below 200,000 have), of `=` and `+0`, and of the bars.
#[test]
fn a_long_text_is_serialized() -> Result<(), Fail> {
    let text = letters()?;
    let written = written(&text)?;
    assert!(written.len() == 540_000 + 1_088_890 + 600_000 + 199_999);
    assert!(written.starts_with("97=0+0|98=1+0|"));
    assert!(written.ends_with("|106=199999+0"));
    Ok(())
}

#[test]
fn an_empty_text_is_rendered() -> Result<(), Fail> {
    let written = written("")?;
    assert!(written.as_str() == "");
    Ok(())
}
