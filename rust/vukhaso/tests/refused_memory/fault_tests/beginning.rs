// Written by tools/plain_rust from crates/fault_tests. Do not edit.

//! Texts and buffers in which each thing that can be said of them was said, so that none can go unseen.

use crate::fault_tests::scenario::Lost;
use vukhaso::internals::buffer::{BufferFlags, GlyphBuffer, UnicodeBuffer, hb_buffer_t};
use vukhaso::internals::text::{Direction, GlyphId, Language, script};

/// Flags that have glyphs marked as unsafe to concatenate, and as safe for a tatweel.
const FLAGS: u32 = 0xC0;

/// An empty text of which everything was said.
///
/// # Errors
///
/// `Err`: the clauses below say when.
///
/// # Proved
///
/// That it returns.
#[inline]
pub fn begun_text() -> Result<UnicodeBuffer, Lost> {
    begun_text_with_room(0)
}

/// The same with room for so many glyphs.
///
/// # Errors
///
/// `Err`: the clauses below say when.
///
/// # Proved
///
/// That it returns.
#[inline]
pub fn begun_text_with_room(room: usize) -> Result<UnicodeBuffer, Lost> {
    let language = Language::from_str("he-IL")?;
    let mut text = empty_text(room)?;
    text.set_language(language);
    set_segment(&mut text);
    set_surroundings(&mut text);
    Ok(text)
}

/// Says of a text how it is to be shaped.
fn set_segment(text: &mut UnicodeBuffer) {
    text.set_script(script::HEBREW);
    text.set_direction(Direction::RightToLeft);
    text.set_flags(BufferFlags::from_bits_retain(FLAGS));
    text.set_not_found_variation_selector_glyph(4);
}

/// Says what stands before and behind a text.
fn set_surroundings(text: &mut UnicodeBuffer) {
    text.set_pre_context("before");
    text.set_post_context("after");
}

/// An empty text with room for so many glyphs.
fn empty_text(room: usize) -> Result<UnicodeBuffer, Lost> {
    let mut buffer = hb_buffer_t::new();
    if !buffer.ensure(room)? {
        return Err(Lost::Refusal);
    }
    buffer.clear_positions();
    Ok(GlyphBuffer::from_buffer(buffer).clear())
}

/// A buffer over a text, at a cluster level, of which everything was said. Each glyph has a mask and
/// numbers of its own.
///
/// # Errors
///
/// `Err`: the clauses below say when.
///
/// # Proved
///
/// That it returns.
#[inline]
pub fn begun_buffer(text: &str, level: u32) -> Result<hb_buffer_t, Lost> {
    let mut characters = begun_text()?;
    if !characters.push_str(text)? {
        return Err(Lost::Refusal);
    }
    let mut buffer = characters.into_buffer();
    buffer.cluster_level = level;
    buffer.invisible = Some(GlyphId(3));
    buffer.shaping_failed = true;
    buffer.serial = 6;
    buffer.max_ops = 77;
    set_glyphs(&mut buffer);
    Ok(buffer)
}

/// Gives each glyph a mask and numbers of its own, where no output is open.
fn set_glyphs(buffer: &mut hb_buffer_t) {
    if buffer.have_output() {
        return;
    }
    for (i, glyph) in (1u32..).zip(buffer.info_slice_mut().iter_mut()) {
        glyph.mask = 0x0F00 | (i & 7);
        glyph.var1 = i;
        glyph.var2 = !i;
    }
}
