//! Glyphs that are verified.

use crate::Fail;
use crate::shapers::upright::upright;
use vukhaso::internals::buffer::{BufferFlags, Direction, GlyphBuffer, UnicodeBuffer, hb_buffer_t};
use vukhaso::internals::ot_shape::{ShapeError, VerifyError, shape};
use vukhaso::internals::verification::{Original, ShapesParts, verify};
use vukhaso::memory::AllocError;

/// A text that runs to the right.
fn text_of(text: &str) -> Result<UnicodeBuffer, AllocError> {
    let mut buffer = UnicodeBuffer::new();
    let _ = buffer.push_str(text)?;
    buffer.reset_clusters();
    buffer.set_direction(Direction::LeftToRight);
    Ok(buffer)
}

/// All tests of glyphs.
fn verified() -> BufferFlags {
    BufferFlags::VERIFY.union(BufferFlags::PRODUCE_UNSAFE_TO_CONCAT)
}

/// Leaves parts as they are, with the numbers of characters in place of glyphs.
#[derive(Clone, Copy)]
struct Unshaped;

impl ShapesParts for Unshaped {
    fn shape(&self, buffer: hb_buffer_t) -> Result<GlyphBuffer, ShapeError> {
        let mut buffer = buffer;
        buffer.clear_positions();
        Ok(GlyphBuffer::from_buffer(buffer))
    }
}

/// What is told of the glyphs of a text by parts of it that are not shaped.
fn told(glyphs: &GlyphBuffer, text: UnicodeBuffer) -> Result<(), ShapeError> {
    let original = Original::of(&text.into_buffer())?;
    verify(&Unshaped, &original, glyphs)
}

/// Parts of a text that have other glyphs than the whole, which is not marked.
#[test]
fn a_text_that_is_not_safe_to_cut_is_told() -> Result<(), Fail> {
    let face = upright()?;
    let glyphs = shape(&face, &[], text_of("ab")?)?;
    let error = told(&glyphs, text_of("ab")?).err();
    assert_eq!(
        error,
        Some(ShapeError::Unverified(VerifyError::UnsafeToBreak))
    );
    Ok(())
}

/// Two jamo with a letter between them are clusters of their own, and side by side they are one. They
/// are not marked as unsafe to concatenate.
#[test]
fn a_text_that_is_not_safe_to_put_together_is_told() -> Result<(), Fail> {
    let face = upright()?;
    let mut text = text_of("\u{1100}a\u{1161}")?;
    text.set_flags(verified());
    let error = shape(&face, &[], text).err();
    assert_eq!(
        error,
        Some(ShapeError::Unverified(VerifyError::UnsafeToConcat))
    );
    Ok(())
}
