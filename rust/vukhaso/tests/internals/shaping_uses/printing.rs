// Written by tools/plain_rust from crates/shaping_uses. Do not edit.

//! A text is pushed, and printed as HarfBuzz prints glyphs.

use vukhaso::internals::buffer::{GlyphBuffer, SerializeFlags, UnicodeBuffer};
use vukhaso::internals::glyph::NoGlyphNames;
use vukhaso::memory::{AllocError, String};

/// The characters of a text with their clusters, before any font gave them glyphs.
///
/// # Errors
///
/// `Ok(None)` exactly where a buffer may not hold so many. `Err(AllocError)` comes only where the text
/// is not empty.
///
/// # Proved
///
/// ```text
/// ensures is { IfOk result (λ printed. MatchOption printed
///     (0x3FFF_FFFF < length (chars text.now))
///     (λ line. (length (chars text.now) ≤ 0x3FFF_FFFF)
///     × (string_bytes line ≡ printed_characters text.now))) }
/// ensures wants { OnErr result (0 < length (chars text.now)) }
/// ```
#[inline]
pub fn print_characters(text: &str) -> Result<Option<String>, AllocError> {
    let mut characters = UnicodeBuffer::new();
    if !characters.push_str(text)? {
        return Ok(None);
    }
    let mut buffer = characters.into_buffer();
    buffer.clear_positions();
    let glyphs = GlyphBuffer::from_buffer(buffer);
    let line = glyphs.serialize(&NoGlyphNames, SerializeFlags::NO_GLYPH_NAMES)?;
    Ok(Some(line))
}
