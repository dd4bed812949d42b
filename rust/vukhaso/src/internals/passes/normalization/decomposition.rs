// Written by tools/plain_rust from crates/shaping_passes. Do not edit.

//! Each character gives way to its canonical decomposition, as far as a font has glyphs for its parts.

use super::rules::FontCharacters;
use crate::arrayvec::ArrayVec;
use crate::buffer::hb_buffer_t;
use crate::memory::AllocError;

/// How often a character is taken apart at most.
const MOST_STEPS: usize = 8;

/// Room for the parts of one character.
pub type Parts = ArrayVec<u32, 9>;

/// Replaces each character by its canonical decomposition, as far as the font has glyphs for the parts:
/// its first part is taken apart again and again. A character that the font has is kept, where as
/// little as can be is taken apart, and so is one of which the font lacks a part. Each part keeps the
/// cluster and all else of the character. Then the cursor is at the start, and positions are off.
///
/// A table of Unicode is as good as a font that has every glyph.
///
/// # Requires
///
/// That no output is open.
///
/// - `buffer.old.have_output ≡ false`
///
/// # Errors
///
/// `Ok(false)` after an earlier refusal, with nothing changed, and where the list would grow too long:
/// then the output stays open, with the decompositions that fit, and what was not read is left in the
/// input. The same stands where memory runs out, which it does only where the list becomes longer, and
/// longer than its room. `Err(AllocError)` where memory ran out.
///
/// # Proved
///
/// ```text
/// ensures { Decomposes (F.font font.now) buffer.old result buffer.new }
/// ```
#[inline]
pub fn decompose_all<F: FontCharacters>(
    buffer: &mut hb_buffer_t,
    font: &F,
) -> Result<bool, AllocError> {
    debug_assert!(!buffer.have_output());
    if !buffer.successful() {
        return Ok(false);
    }
    buffer.clear_output();
    while buffer.lookahead_len() > 0 {
        if !decompose_current(buffer, font)? {
            return Ok(false);
        }
    }
    buffer.sync()
}

/// Puts the decomposition of the character at the cursor out.
///
/// # Requires
///
/// - `opened: buffer.old.have_output ≡ true`
/// - `some: 0 < lookahead_len buffer.old`
fn decompose_current<F: FontCharacters>(
    buffer: &mut hb_buffer_t,
    font: &F,
) -> Result<bool, AllocError> {
    debug_assert!(buffer.have_output());
    debug_assert!(0 < buffer.lookahead_len());
    let id = buffer.cur(0).glyph_id;
    if stays(font, id) {
        return buffer.next_glyph();
    }
    let mut parts = Parts::new();
    if add_font_parts(&mut parts, font, id) {
        buffer.replace_glyphs(1, parts.len(), &parts)
    } else {
        buffer.next_glyph()
    }
}

/// Whether the character stays since the font has it, and as little as can be is taken apart.
fn stays<F: FontCharacters>(font: &F, character: u32) -> bool {
    font.takes_fewest() && font.has_glyph(character)
}

/// Adds the parts of a character that the font has a glyph for, each of them. Whether there are such
/// parts; if not, nothing is added.
///
/// # Requires
///
/// - `parts.old.items ≡ []`
///
/// # Proved
///
/// ```text
/// ensures found { result ≡ is_some (parts_with (F.font font.now) most_steps character) }
/// ensures parts { parts.new.items ≡ unwrap_or (parts_with (F.font font.now) most_steps character) [] }
/// ```
#[inline]
pub fn add_font_parts<F: FontCharacters>(parts: &mut Parts, font: &F, character: u32) -> bool {
    add_parts(parts, font, character, MOST_STEPS)
}

/// Adds the parts of a character that the font has, in at most so many steps.
///
/// # Requires
///
/// - `length parts.old.items + steps < 9`
fn add_parts<F: FontCharacters>(parts: &mut Parts, font: &F, character: u32, steps: usize) -> bool {
    if steps == 0 {
        return false;
    }
    match font.parts_of(character) {
        Some((first, second)) => add_both(parts, font, first, second, steps),
        None => false,
    }
}

/// Adds the first part of a character, or the parts of that, and then the second part.
///
/// # Requires
///
/// - `some: 0 < steps`
/// - `room: length parts.old.items + steps < 9`
fn add_both<F: FontCharacters>(
    parts: &mut Parts,
    font: &F,
    first: u32,
    second: u32,
    steps: usize,
) -> bool {
    debug_assert!(0 < steps);
    if lacks(font, second) {
        return false;
    }
    if !add_first(parts, font, first, steps) {
        return false;
    }
    push_part(parts, second);
    true
}

/// Whether the font lacks a second part that there is.
fn lacks<F: FontCharacters>(font: &F, second: u32) -> bool {
    second != 0 && !font.has_glyph(second)
}

/// Adds a second part, unless it is U+0000.
///
/// # Requires
///
/// - `length parts.old.items < 9`
fn push_part(parts: &mut Parts, second: u32) {
    if second != 0 {
        parts.push(second);
    }
}

/// Adds the first part of a character, or the parts of that.
///
/// # Requires
///
/// - `some: 0 < steps`
/// - `room: length parts.old.items + steps < 9`
fn add_first<F: FontCharacters>(parts: &mut Parts, font: &F, first: u32, steps: usize) -> bool {
    debug_assert!(0 < steps);
    let has_first = font.has_glyph(first);
    if font.takes_fewest() && has_first {
        parts.push(first);
        return true;
    }
    if add_parts(parts, font, first, steps - 1) {
        return true;
    }
    if has_first {
        parts.push(first);
    }
    has_first
}
