use crate::Fail;
use crate::buffer::lists::buffer_of;
use crate::shaping_uses::comparing::equal_texts_mean_equal_glyphs;
use vukhaso::internals::buffer::{GlyphBuffer, SerializeFlags};
use vukhaso::internals::glyph::NoGlyphNames;
use vukhaso::memory::String;

/// The glyphs of a text, with positions of 0.
fn glyphs(text: &str) -> GlyphBuffer {
    let mut buffer = buffer_of(text);
    buffer.clear_positions();
    GlyphBuffer::from_buffer(buffer)
}

/// Asserts that there are so many glyphs, each with a position that moves nothing.
fn assert_in_place(shaped: &GlyphBuffer, len: usize) {
    assert!(shaped.len() == len);
    assert!(shaped.is_empty() == (len == 0));
    assert!(shaped.glyph_infos().len() == len);
    assert!(shaped.glyph_positions().len() == len);
    for position in shaped.glyph_positions() {
        assert!(position.x_advance == 0);
    }
}

/// Asserts what the glyphs are as a text without names.
fn assert_written(shaped: &GlyphBuffer, want: &str) -> Result<(), Fail> {
    let written = shaped.serialize(&NoGlyphNames, SerializeFlags::NO_GLYPH_NAMES)?;
    assert!(written.as_str() == want);
    Ok(())
}

#[test]
fn glyphs_have_infos_and_positions() -> Result<(), Fail> {
    let shaped = glyphs("ab");
    assert_in_place(&shaped, 2);
    assert_written(&shaped, "97=0+0|98=1+0")?;
    let text = shaped.clear();
    assert!(text.is_empty());
    Ok(())
}

#[test]
fn a_failure_to_shape_is_told() -> Result<(), Fail> {
    let mut buffer = buffer_of("ab");
    buffer.clear_positions();
    buffer.shaping_failed = true;
    assert!(GlyphBuffer::from_buffer(buffer).shaping_failed());
    assert!(!glyphs("ab").shaping_failed());
    Ok(())
}

/// The text of glyphs by their numbers and with their flags.
fn numbered(shaped: &GlyphBuffer) -> Result<String, Fail> {
    let flags = SerializeFlags::NO_GLYPH_NAMES.union(SerializeFlags::GLYPH_FLAGS);
    Ok(shaped.serialize(&NoGlyphNames, flags)?)
}

/// Whether the glyphs of two texts are written as one text.
fn are_written_alike(one: &str, other: &str) -> Result<bool, Fail> {
    let first = glyphs(one);
    let second = glyphs(other);
    equal_texts_mean_equal_glyphs(&first, &second);
    Ok(numbered(&first)? == numbered(&second)?)
}

#[test]
fn equal_texts_are_of_equal_glyphs() -> Result<(), Fail> {
    let texts = ["", "a", "ab", "ac", "abc"];
    for one in &texts {
        for other in &texts {
            let alike = are_written_alike(one, other)?;
            assert!(alike == (one == other), "{one} and {other}");
        }
    }
    Ok(())
}
